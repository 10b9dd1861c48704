"""What `bench_fields` reads and writes, by Python's standard library."""
import base64, http.client, io, json, urllib.parse

def head(text):
    """The method and the path, and the headers."""
    file = io.BytesIO(text)
    method, path, _ = file.readline().split()
    return method, path, http.client.parse_headers(file)

def authorize(text):
    method, path, headers = head(text)
    kind, pair = headers["Authorization"].split(" ", 1)
    key, secret = base64.b64decode(pair, validate=True).decode().split(":", 1)
    assert method == b"GET" and path.endswith(b"/b2_authorize_account") and kind == "Basic"
    return key, secret

def upload(text):
    method, path, headers = head(text)
    front = "x-bz-info-"
    return (
        int(path.rsplit(b"/", 1)[1], 16), headers["Authorization"], int(headers["Content-Length"]),
        headers["Content-Type"], urllib.parse.unquote_plus(headers["X-Bz-File-Name"], errors="strict"),
        bytes.fromhex(headers["X-Bz-Content-Sha1"]), headers.get("X-Bz-File-Legal-Hold") == "on",
        {name[len(front):].lower(): urllib.parse.unquote_plus(value, errors="strict")
         for name, value in headers.items() if name.lower().startswith(front)})

def names(text):
    body = json.loads(text)
    return (int(body["bucketId"], 16), body.get("startFileName"), body.get("maxFileCount"), body.get("prefix"),
            body.get("delimiter"))

def rule(fields):
    return (fields["fileNamePrefix"], fields.get("daysFromUploadingToHiding"), fields.get("daysFromHidingToDeleting"),
            fields.get("daysFromStartingToCancelingUnfinishedLargeFiles"))

def bucket(text):
    body = json.loads(text)
    return (body["accountId"], body["bucketName"], body["bucketType"] == "allPublic", body.get("bucketInfo"),
            body.get("fileLockEnabled"), [rule(fields) for fields in body.get("lifecycleRules", [])])

def write(value):
    return json.dumps(value, ensure_ascii=False, separators=(",", ":"))

write_account = write_names = write_bucket = write

def prepared(what, text):
    """What the call of this name is called on."""
    return json.loads(text) if what.startswith("write_") else text
