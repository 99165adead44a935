# A folder for what a script keeps while it runs. It goes when the script ends, also by a signal. `at_end` is called before that.
make_scratch() {
    scratch=$(mktemp -d) || exit 70
    trap 'at_end; rm -rf -- "$scratch"' EXIT
    trap 'exit 129' HUP
    trap 'exit 130' INT
    trap 'exit 143' TERM
}
at_end() { :; }
