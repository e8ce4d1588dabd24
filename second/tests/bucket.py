"""Lists a bucket.

Puts the keys on standard input, one a line, in that order into a bucket of a store (moto's) that
runs in this process and is reached on this machine alone, and prints the bucket's keys, one a
line, as the ordinary client (boto3) lists them; on standard error how many pages that took. Ends with 77 where boto3 or moto is missing.
"""

import logging
import os
import signal
import sys

MISSING = 77
# The last two come with moto's server, not with moto alone.
NEEDED = ("boto3", "moto", "flask", "flask_cors")
# Seconds after which the whole process ends, whatever hangs.
LONGEST = 300


def keep_to_this_machine():
    """No proxy, account or setting of the user's; the store takes any key, but asks for one."""
    for name in list(os.environ):
        if name.upper().startswith("AWS_") or name.upper().endswith("_PROXY"):
            del os.environ[name]
    os.environ["AWS_ACCESS_KEY_ID"] = "nobody"
    os.environ["AWS_SECRET_ACCESS_KEY"] = "nothing"
    os.environ["AWS_DEFAULT_REGION"] = "us-east-1"
    os.environ["AWS_CONFIG_FILE"] = os.devnull
    os.environ["AWS_SHARED_CREDENTIALS_FILE"] = os.devnull
    os.environ["AWS_EC2_METADATA_DISABLED"] = "true"


def listed(client, bucket):
    """The bucket's pages, each a list of keys."""
    pages = client.get_paginator("list_objects_v2").paginate(Bucket=bucket)
    return [[entry["Key"] for entry in page.get("Contents", [])] for page in pages]


def main():
    signal.alarm(LONGEST)
    keys = sys.stdin.read().splitlines()
    keep_to_this_machine()
    try:
        import boto3
        from moto.server import ThreadedMotoServer
    except ModuleNotFoundError as missing:
        if missing.name not in NEEDED:
            raise
        return MISSING
    logging.getLogger("werkzeug").setLevel(logging.ERROR)
    server = ThreadedMotoServer(ip_address="127.0.0.1", port=0, verbose=False)
    server.start()
    host, port = server.get_host_and_port()
    client = boto3.client("s3", endpoint_url=f"http://{host}:{port}")
    client.create_bucket(Bucket="depot")
    for key in keys:
        client.put_object(Bucket="depot", Key=key, Body=b"")
    pages = listed(client, "depot")
    for page in pages:
        for key in page:
            print(key)
    print(f"{len(pages)} pages", file=sys.stderr)
    server.stop()
    return 0


if __name__ == "__main__":
    sys.exit(main())
