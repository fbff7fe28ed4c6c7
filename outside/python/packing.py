"""Makes the wheel that `pip install outside/python` installs, without a network: the package, the shared library that
`outside/run python` has linked, the command and its manual page. pip calls `build_wheel`, as PEP 517 has it.
"""

import base64
import hashlib
import pathlib
import sys
import sysconfig
import tomllib
import zipfile

HERE = pathlib.Path(__file__).resolve().parent
LIBRARY = HERE.parents[1] / "target" / "python" / "libleveretplate.so"


def build_wheel(wheel_directory: str, config_settings: object = None, metadata_directory: object = None) -> str:
    """Writes the wheel, and answers with its name."""
    if not LIBRARY.exists():
        raise SystemExit(f"no shared library {LIBRARY}: `outside/run python` links it first")
    project = tomllib.loads((HERE / "pyproject.toml").read_text("utf-8"))["project"]
    named = f"{project['name']}-{project['version']}"
    platform = sysconfig.get_platform().replace("-", "_").replace(".", "_")
    tag = f"py3-none-{platform}"
    files = {f"leveretplate/{path.name}": path.read_bytes() for path in sorted((HERE / "leveretplate").iterdir())
             if path.is_file()}
    files[f"leveretplate/{LIBRARY.name}"] = LIBRARY.read_bytes()
    files[f"{named}.data/data/share/man/man1/leveretplate.1"] = _manual()
    scripts = "".join(f"{name} = {target}\n" for name, target in project["scripts"].items())
    about = f"{named}.dist-info"
    files[f"{about}/entry_points.txt"] = f"[console_scripts]\n{scripts}".encode()
    files[f"{about}/METADATA"] = (f"Metadata-Version: 2.1\nName: {project['name']}\nVersion: {project['version']}\n"
                                  f"Summary: {project['description']}\n"
                                  f"Requires-Python: {project['requires-python']}\n").encode()
    files[f"{about}/WHEEL"] = f"Wheel-Version: 1.0\nGenerator: packing\nRoot-Is-Purelib: false\nTag: {tag}\n".encode()
    record = "".join(f"{name},sha256={_sum(data)},{len(data)}\n" for name, data in files.items())
    files[f"{about}/RECORD"] = f"{record}{about}/RECORD,,\n".encode()
    wheel = f"{named}-{tag}.whl"
    with zipfile.ZipFile(pathlib.Path(wheel_directory, wheel), "w", zipfile.ZIP_DEFLATED) as packed:
        for name, data in files.items():
            packed.writestr(name, data)
    return wheel


def _manual() -> bytes:
    sys.path[:0] = [str(HERE)]
    from leveretplate.manual import manual
    return manual().encode()


def _sum(data: bytes) -> str:
    return base64.urlsafe_b64encode(hashlib.sha256(data).digest()).rstrip(b"=").decode()
