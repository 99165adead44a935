"""Many requests at once (ab, wrk), and nginx in front."""
import http.client, subprocess, tempfile

from checks import check, differs, has, run, wait_for


def load_clients(files):
    url = "http://%s:%d/a.txt" % files
    if has("ab"):
        for connections in (1, 16):
            def make():
                text = run("ab", "-q", "-k", "-n", "5000", "-c", str(connections), url, seconds=120).stdout.decode()
                return None if "Failed requests:        0" in text and "Complete requests:      5000" in text else text[-300:]
            check(f"ab -k, 5,000 requests, {connections} at once", make)
    if has("wrk"):
        def make():
            text = run("wrk", "-d", "3s", "-c", "64", "-t", "2", url).stdout.decode()
            return text if "Non-2xx" in text or "Socket errors" in text or "requests in" not in text else None
        check("wrk, 64 connections", make)


NGINX = """
worker_processes 1; daemon off; pid %(folder)s/nginx.pid; error_log %(folder)s/error.log;
events { worker_connections 512; }
http {
  access_log off; client_body_temp_path %(folder)s/b; proxy_temp_path %(folder)s/p; fastcgi_temp_path %(folder)s/f;
  uwsgi_temp_path %(folder)s/u; scgi_temp_path %(folder)s/s; client_max_body_size 0;
  upstream kept { server %(files)s; keepalive 8; }
  upstream both { server %(files)s; server %(second)s; keepalive 8; }
  server { listen 127.0.0.1:%(port)d;
    location /plain/ { proxy_pass http://%(files)s/; }
    location /kept/ { proxy_pass http://kept/; proxy_http_version 1.1; proxy_set_header Connection ""; }
    location /raw/ { proxy_pass http://%(files)s/; proxy_buffering off; proxy_request_buffering off; proxy_http_version 1.1; }
    location /both/ { proxy_pass http://both/; proxy_http_version 1.1; proxy_set_header Connection ""; }
    location /echo { proxy_pass http://%(hello)s/echo; proxy_http_version 1.1; proxy_request_buffering off; } } }
"""


def nginx_clients(files, second, hello, folder, free, end_second):
    """Nginx before the servers. Of the two that it spreads requests over the second one is ended at last, where it can be."""
    if not has("nginx"):
        return
    big = open(f"{folder}/big.bin", "rb").read()
    with tempfile.TemporaryDirectory() as place:
        with open(f"{place}/nginx.conf", "w") as text:
            text.write(NGINX % {"folder": place, "files": "%s:%d" % files, "second": "%s:%d" % (second or files),
                                "hello": "%s:%d" % hello, "port": free})
        nginx = subprocess.Popen(["nginx", "-c", f"{place}/nginx.conf"], stderr=subprocess.DEVNULL)
        try:
            wait_for(("127.0.0.1", free))
            for mode in ("plain", "kept", "raw") + (("both",) if second else ()):
                def make():
                    for _ in range(20):
                        client = http.client.HTTPConnection("127.0.0.1", free, timeout=20)
                        client.request("GET", f"/{mode}/big.bin")
                        answer = client.getresponse()
                        if answer.status != 200 or answer.read() != big:
                            return answer.status
                check(f"nginx in front, {mode}", make)

            def echoed():
                client = http.client.HTTPConnection("127.0.0.1", free, timeout=60)
                client.request("POST", "/echo", iter([big[:1000]] * 100), encode_chunked=True, headers={"Transfer-Encoding": "chunked"})
                return differs(client.getresponse().read(), big[:1000] * 100)
            check("nginx in front, an echo", echoed)

            def spread(wanted):
                def make():
                    seen = []
                    for _ in range(20):
                        client = http.client.HTTPConnection("127.0.0.1", free, timeout=20)
                        client.request("GET", "/both/name.txt")
                        answer = client.getresponse()
                        seen.append(answer.read() if answer.status == 200 else answer.status)
                        client.close()
                    return differs({name: seen.count(name) for name in seen}, wanted)
                return make
            if second:
                check("nginx in front of two servers, ten requests to each", spread({b"first": 10, b"second": 10}))
            if second and end_second:
                end_second()
                check("nginx in front of two servers, one of which has ended", spread({b"first": 20}))
        finally:
            nginx.terminate()
            nginx.wait()
