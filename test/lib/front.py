"""The configurations of docs/DEPLOYING.md: TLS by nginx, haproxy and stunnel in front of app_files, and several processes."""
import os, re, shutil, subprocess, tempfile, time

from checks import ROOT, check, differs, free_port, run, wait_for

PACKAGES = {"nginx": "nginx-light", "haproxy": "haproxy", "stunnel": "stunnel4", "openssl": "openssl"}


def has(tool):
    if shutil.which(tool):
        return True
    print(f"passed over: {tool} (package {PACKAGES[tool]})", flush=True)
    return False


def configuration(kind, changes):
    """What stands on the page in a block of this kind, with other ports and paths. Each of these has to be there."""
    text = re.search(rf"^```{kind}\n(.*?)^```", open(f"{ROOT}/docs/DEPLOYING.md").read(), re.S | re.M)[1]
    for old, new in changes.items():
        if old not in text:
            raise ValueError(f"the block {kind} has no {old}")
        text = text.replace(old, new)
    return text


class Front:
    """A server in front, until the block ends."""

    def __init__(self, port, *words):
        self.address = "127.0.0.1", port
        self.process = subprocess.Popen(words, stdout=subprocess.PIPE, stderr=subprocess.STDOUT)

    def __enter__(self):
        try:
            wait_for(self.address, 10)
        except OSError:
            self.process.kill()
            raise OSError(self.process.communicate()[0].decode()[-300:])
        return self

    def __exit__(self, *_):
        self.process.terminate()
        self.process.communicate()


def front_clients(first, second, folder):
    """Runs the checks before two servers of one folder: ports of app_files."""
    if not has("openssl"):
        return
    big = open(f"{folder}/big.bin", "rb").read()
    with tempfile.TemporaryDirectory() as place:
        run("openssl", "req", "-x509", "-newkey", "rsa:2048", "-nodes", "-days", "2", "-subj", "/CN=localhost",
            "-keyout", f"{place}/site.key", "-out", f"{place}/site.pem")
        with open(f"{place}/both.pem", "w") as both:
            for name in ("site.pem", "site.key"):
                both.write(open(f"{place}/{name}").read())

        def fetched(port, words=()):
            done = run("curl", "-sS", "-k", "-m", "60", *words, f"https://127.0.0.1:{port}/big.bin")
            return done.stderr.decode() or differs(done.stdout, big)

        def by_nginx():
            port = free_port()
            text = configuration("nginx", {"127.0.0.1:8080": f"127.0.0.1:{first}", "listen 443": f"listen 127.0.0.1:{port}",
                                           "/etc/ssl/site.pem": f"{place}/site.pem", "/etc/ssl/site.key": f"{place}/site.key"})
            with open(f"{place}/nginx.conf", "w") as file:
                file.write(f"daemon off; master_process off; pid {place}/nginx.pid; error_log stderr;\nevents {{}}\n"
                           f"http {{ access_log off; client_body_temp_path {place}/b; proxy_temp_path {place}/p;\n{text}\n}}\n")
            with Front(port, "nginx", "-e", "stderr", "-c", f"{place}/nginx.conf"):
                return fetched(port) or fetched(port, ["--http1.1"])

        def by_haproxy():
            port = free_port()
            text = configuration("haproxy", {"127.0.0.1:8080": f"127.0.0.1:{first}", "127.0.0.1:8081": f"127.0.0.1:{second}",
                                             "bind :443": f"bind 127.0.0.1:{port}", "/etc/ssl/site-with-key.pem": f"{place}/both.pem"})
            with open(f"{place}/haproxy.cfg", "w") as file:
                file.write(text)
            with Front(port, "haproxy", "-db", "-f", f"{place}/haproxy.cfg"):
                return fetched(port) or fetched(port)

        def by_stunnel():
            port = free_port()
            text = configuration("stunnel", {"127.0.0.1:8080": f"127.0.0.1:{first}", "accept = 443": f"accept = 127.0.0.1:{port}",
                                             "/etc/ssl/site-with-key.pem": f"{place}/both.pem"})
            with open(f"{place}/stunnel.conf", "w") as file:
                file.write("foreground = yes\npid =\n" + text)
            with Front(port, "stunnel", f"{place}/stunnel.conf"):
                return fetched(port)

        for tool, name, make in (("nginx", "TLS by nginx", by_nginx), ("haproxy", "TLS by haproxy, two processes", by_haproxy),
                                 ("stunnel", "TLS by stunnel", by_stunnel)):
            if has(tool):
                check(f"curl, a file of 3,000,000 bytes through {name}", make)
