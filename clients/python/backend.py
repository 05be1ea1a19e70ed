"""Builds the wheel that pip installs: the files of dss_client, with the metadata of pyproject.toml. Needs only the standard
library."""
import base64
import hashlib
import pathlib
import re
import zipfile

TOP = pathlib.Path(__file__).resolve().parent
TAG = "py3-none-any"


def project():
    """Returns the texts of the table `project`. Python 3.9 has no tomllib."""
    table = (TOP / "pyproject.toml").read_text(encoding="utf-8").partition("[project]\n")[2].partition("\n[")[0]
    return dict(re.findall(r'(?m)^([\w-]+) = "(.*)"$', table))


def build_wheel(wheel_directory, config_settings=None, metadata_directory=None):
    it = project()
    name = f"{it['name'].replace('-', '_')}-{it['version']}"
    metadata = f"Metadata-Version: 2.1\nName: {it['name']}\nVersion: {it['version']}\nSummary: {it['description']}\n"
    metadata += f"Requires-Python: {it['requires-python']}\n"
    files = {f"dss_client/{file.name}": file.read_bytes()
             for file in sorted((TOP / "dss_client").iterdir()) if file.suffix == ".py" or file.name == "py.typed"}
    files[f"{name}.dist-info/METADATA"] = metadata.encode()
    files[f"{name}.dist-info/WHEEL"] = f"Wheel-Version: 1.0\nGenerator: backend\nRoot-Is-Purelib: true\nTag: {TAG}\n".encode()
    record = f"{name}.dist-info/RECORD"
    lines = [f"{path},sha256={sum_of(data)},{len(data)}" for path, data in files.items()]
    files[record] = "\n".join([*lines, f"{record},,", ""]).encode()
    with zipfile.ZipFile(pathlib.Path(wheel_directory, f"{name}-{TAG}.whl"), "w", zipfile.ZIP_DEFLATED) as wheel:
        for path, data in files.items():
            wheel.writestr(zipfile.ZipInfo(path, (2026, 1, 1, 0, 0, 0)), data)
    return f"{name}-{TAG}.whl"


def sum_of(data):
    return base64.urlsafe_b64encode(hashlib.sha256(data).digest()).rstrip(b"=").decode()
