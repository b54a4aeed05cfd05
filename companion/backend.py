"""Builds the wheel of the companion, with the standard library alone.

    pip install ./companion      calls `build_wheel`: a wheel of what dist/ has for this machine
    pip install -e ./companion   calls `build_editable`: a wheel that only points to this folder
    tools/make/dist.py           calls `wheel`: the wheels of dist/, of its other files

A wheel is a ZIP. The same files give the same bytes: names are sorted, and all times are the same. In a wheel the package has beside its
modules what lies around it in the repository: `bench`, which starts the program, LANGUAGE.md, and of dist/ what one machine can use."""
import ast
import base64
import hashlib
import io
import platform
import sys
import zipfile
from pathlib import Path

HERE = Path(__file__).resolve().parent
TOP = HERE.parent
# What dist/ has for each machine; the page is for all.
MACHINES = {
    "x86_64": ("bench-x86_64-linux", "bench-x86_64-v3-linux", "libbench.so.1", "glibc-hwcaps/x86-64-v3/libbench.so.1"),
    "aarch64": ("bench-aarch64-linux", "libbench-aarch64.so.1"),
}
PAGE = "dist/bench.html"
LICENSES = ("LICENSE-MIT", "LICENSE-APACHE", "docs/NOTICES.md")
ALWAYS = (1980, 1, 1, 0, 0, 0)  # the first time that a ZIP can name


def project():
    """The tables of pyproject.toml."""
    tables, name = {}, ""
    for line in (HERE / "pyproject.toml").read_text(encoding="utf-8").splitlines():
        key, is_value, value = line.partition(" = ")
        if line.startswith("["):
            name = line.strip("[]")
        elif is_value and not line.startswith("#"):
            tables.setdefault(name, {})[key] = ast.literal_eval(value)
    return tables


def metadata(tables):
    """The file METADATA."""
    said = tables["project"]
    lines = ["Metadata-Version: 2.4", f"Name: {said['name']}", f"Version: {said['version']}", f"Summary: {said['description']}",
             f"Requires-Python: {said['requires-python']}", f"License-Expression: {said['license']}"]
    lines += [f"License-File: {Path(path).name}" for path in LICENSES if (TOP / path).is_file()]
    for extra, wanted in tables.get("project.optional-dependencies", {}).items():
        lines += [f"Provides-Extra: {extra}", *(f'Requires-Dist: {each}; extra == "{extra}"' for each in wanted)]
    return "\n".join(lines) + "\n"


def entry_points(tables):
    """The file entry_points.txt: the commands, and what other packages look for."""
    groups = {"console_scripts": tables["project.scripts"]}
    groups.update((name[len("project.entry-points."):], table) for name, table in tables.items() if name.startswith("project.entry-points."))
    return "\n".join(f"[{group}]\n" + "".join(f"{name} = {place}\n" for name, place in table.items()) for group, table in groups.items())


def dist_info(tag):
    """The folder .dist-info, but for RECORD."""
    tables = project()
    texts = {"METADATA": metadata(tables), "entry_points.txt": entry_points(tables),
             "WHEEL": f"Wheel-Version: 1.0\nGenerator: bench\nRoot-Is-Purelib: {str(tag.endswith('-any')).lower()}\nTag: {tag}\n"}
    found = {f"{stem()}.dist-info/{name}": text.encode() for name, text in texts.items()}
    found.update((f"{stem()}.dist-info/licenses/{Path(path).name}", (TOP / path).read_bytes()) for path in LICENSES if (TOP / path).is_file())
    return found


def stem():
    """The name and the version, as wheels write them."""
    said = project()["project"]
    return f"{said['name'].replace('-', '_')}-{said['version']}"


def built(machine):
    """What dist/ has for a machine: paths by their names there."""
    return {name: TOP / "dist" / name for name in MACHINES.get(machine, ()) if (TOP / "dist" / name).is_file()}


def package(binaries):
    """The package with what lies around it, and these binaries: their paths by their names in dist/."""
    paths = {path.relative_to(HERE).as_posix(): path for path in (HERE / "bench_tool").rglob("*") if path.suffix in (".py", ".typed")}
    others = {"LANGUAGE.md": TOP / "docs/LANGUAGE.md", PAGE: TOP / PAGE, **({"bench": TOP / "bench"} if binaries else {}),
              **{f"vectors/{path.name}": path for path in (TOP / "vectors").glob("*.jsonl")}, **{f"dist/{name}": path for name, path in binaries.items()}}
    paths.update((f"bench_tool/{name}", path) for name, path in others.items() if path.is_file())
    return {name: path.read_bytes() for name, path in paths.items()}


def recorded(files):
    """The files with RECORD, which has the sum and the size of each."""
    def line(name):
        digest = base64.urlsafe_b64encode(hashlib.sha256(files[name]).digest()).rstrip(b"=").decode()
        return f"{name},sha256={digest},{len(files[name])}\n"
    record = f"{stem()}.dist-info/RECORD"
    return {**files, record: ("".join(map(line, sorted(files))) + f"{record},,\n").encode()}


def zipped(files):
    """The files as a ZIP, in which those that run, or are loaded to run, may be run; .dist-info comes last, as wheels have it."""
    made = io.BytesIO()
    with zipfile.ZipFile(made, "w") as archive:
        for name in sorted(files, key=lambda name: (".dist-info/" in name, name)):
            entry = zipfile.ZipInfo(name, ALWAYS)
            entry.create_system, entry.compress_type = 3, zipfile.ZIP_DEFLATED
            entry.external_attr = (0o100755 if files[name][:4] in (b"\x7fELF", b"#!/b") else 0o100644) << 16
            archive.writestr(entry, files[name], compresslevel=9)
    return made.getvalue()


def wheel(binaries, platform_tag):
    """The name and the bytes of a wheel with these binaries, for platforms of this tag."""
    tag = f"py3-none-{platform_tag}"
    return f"{stem()}-{tag}.whl", zipped(recorded({**package(binaries), **dist_info(tag)}))


def build_wheel(wheel_directory, config_settings=None, metadata_directory=None):
    """Called by pip."""
    machine = platform.machine()
    binaries = built(machine) if sys.platform == "linux" else {}
    name, data = wheel(binaries, f"linux_{machine}" if binaries else "any")
    Path(wheel_directory, name).write_bytes(data)
    return name


def build_editable(wheel_directory, config_settings=None, metadata_directory=None):
    """Called by pip for `-e`: the modules stay here, where they find what lies around them."""
    tag = "py3-none-any"
    name = f"{stem()}-{tag}.whl"
    Path(wheel_directory, name).write_bytes(zipped(recorded({"bench_tool.pth": f"{HERE}\n".encode(), **dist_info(tag)})))
    return name
