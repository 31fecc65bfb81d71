"""Writes a folder as a wheel, with the list of its files, and with one time for all of them.

SOURCE_DATE_EPOCH=SECONDS python3 wheel.py FOLDER WHEEL
"""

import base64
import hashlib
import os
import sys
import time
import zipfile
from pathlib import Path


def digest(data):
    return base64.urlsafe_b64encode(hashlib.sha256(data).digest()).rstrip(b"=").decode()


def main():
    folder, wheel = Path(sys.argv[1]), sys.argv[2]
    moment = time.gmtime(int(os.environ["SOURCE_DATE_EPOCH"]))[:6]
    # Installers look for the files about the package at the end.
    files = (path for path in folder.rglob("*") if path.is_file())
    paths = sorted(files, key=lambda path: (".dist-info" in str(path), str(path)))
    rows = []
    with zipfile.ZipFile(wheel, "w", zipfile.ZIP_DEFLATED) as archive:

        def put(name, data, mode):
            entry = zipfile.ZipInfo(name, moment)
            entry.external_attr = (0o100000 | mode) << 16
            entry.compress_type = zipfile.ZIP_DEFLATED
            archive.writestr(entry, data)

        for path in paths:
            name, data = path.relative_to(folder).as_posix(), path.read_bytes()
            rows.append(f"{name},sha256={digest(data)},{len(data)}\n")
            put(name, data, 0o755 if path.suffix == ".so" else 0o644)
        record = next(folder.glob("*.dist-info")).name + "/RECORD"
        put(record, "".join(rows) + f"{record},,\n", 0o644)


if __name__ == "__main__":
    main()
