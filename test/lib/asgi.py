"""What bin/embed has servers of Python's serve: each request is answered with its method, its target and its body's length."""


async def app(scope, receive, send):
    if scope["type"] != "http":
        return
    size, message = 0, {"more_body": True}
    while message.get("more_body"):
        message = await receive()
        size += len(message.get("body", b""))
    text = f"{scope['method']} {scope['path']}?{scope['query_string'].decode()} {size}".encode()
    headers = [(b"content-type", b"text/plain")]
    if scope["path"] == "/stream":
        await send({"type": "http.response.start", "status": 200, "headers": headers})
        await send({"type": "http.response.body", "body": text, "more_body": True})
        await send({"type": "http.response.body", "body": b" and more", "more_body": True})
        await send({"type": "http.response.body"})
        return
    await send({"type": "http.response.start", "status": 200, "headers": [*headers, (b"content-length", b"%d" % len(text))]})
    await send({"type": "http.response.body", "body": text})
