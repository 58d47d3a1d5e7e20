"""What `make install`, `make dist`, `make deb` and pip put into a folder: it works by its path, for another user, and goes again."""

import importlib.util
import os
import pathlib
import shutil
import subprocess
import sys
import tempfile
from collections.abc import Iterator

import pytest

from conftest import TOP

COMMANDS = ("stil", "lots", "stilfloor", "farm-lot", "farm-grade")
SCAN = ("share/stil/examples/s27scan/s27scan.stil", "share/stil/examples/s27scan/lot.csv")
NOBODY = 65534
EMPTY: dict[str, str] = {}
ADMINISTRATOR = os.getuid() == 0
needs_root = pytest.mark.skipif(not ADMINISTRATOR, reason="this user may not become another one: that is left out")


def made(target: str, *words: str) -> None:
    """Runs make in the checkout."""
    done = subprocess.run(["make", "-s", target, *words], cwd=TOP, capture_output=True, text=True, check=False)
    assert done.returncode == 0, done.stderr


def ran(folder: pathlib.Path, *words: str | pathlib.Path) -> subprocess.CompletedProcess[str]:
    """Runs a command in an empty environment, as nobody where that may be done."""
    user = NOBODY if ADMINISTRATOR else None
    return subprocess.run(list(map(str, words)), cwd=folder, env=EMPTY, user=user, group=user, extra_groups=[] if ADMINISTRATOR else None,
                          capture_output=True, text=True, check=False)


def works(prefix: pathlib.Path) -> None:
    """Runs each command that lies in a folder, by its path, on the examples that lie there too."""
    with tempfile.TemporaryDirectory(prefix="works there-") as name:
        room = pathlib.Path(name)
        (room / "examples").symlink_to(prefix / "share/stil/examples")
        room.chmod(0o777)
        program, plan = (room.joinpath(*pathlib.Path(path).parts[2:]) for path in SCAN)
        for command in COMMANDS:
            done = ran(room, prefix / "bin" / command, "--help")
            assert done.returncode == 0 and command.removeprefix("farm-") in done.stdout, (command, done.stderr)
        lot = ran(room, prefix / "bin/stil", "lot", program, plan)
        assert lot.stdout == (TOP / "examples/s27scan/lot.datalog").read_text() and lot.returncode == 0
        assert ran(room, prefix / "bin/farm-lot", program, plan, "2").stdout == lot.stdout
        grade = ran(room, prefix / "bin/farm-grade", program, plan, "2")
        assert grade.stdout == (TOP / "examples/s27scan/lot.grade").read_text(), grade.stderr
        (room / "lot.datalog").write_text(lot.stdout)
        assert ran(room, prefix / "bin/stilfloor", "lint", program, "--plan", plan).returncode == 0
        told = ran(room, prefix / "bin/stilfloor", "diagnose", program, plan, "lot.datalog", "--die", "c")
        assert told.returncode == 4 or told.stdout.startswith("site 2 die c try 1 fails 2:"), told.stderr


@pytest.fixture
def place() -> Iterator[pathlib.Path]:
    """A folder that everyone may look into."""
    with tempfile.TemporaryDirectory(prefix="installed in-") as name:
        pathlib.Path(name).chmod(0o755)
        yield pathlib.Path(name)


def files_of(folder: pathlib.Path) -> set[str]:
    """All that lies in a folder but folders."""
    return {str(path.relative_to(folder)) for path in folder.rglob("*") if path.is_symlink() or not path.is_dir()}


def test_what_is_installed_works_and_is_taken_away(place: pathlib.Path) -> None:
    made("install", f"PREFIX={place}")
    works(place)
    for command in COMMANDS:
        assert (place / f"share/man/man1/{command}.1").exists()
    for file in ("bash-completion/completions/stilfloor", "zsh/site-functions/_stilfloor", "fish/vendor_completions.d/stilfloor.fish"):
        assert "plot" in (place / "share" / file).read_text()
    completed = subprocess.run(
        ["bash", "-c", 'source "$1"; COMP_WORDS=(stilfloor plot fails --si); COMP_CWORD=3; _stilfloor; echo "${COMPREPLY[@]}"', "-",
         place / "share/bash-completion/completions/stilfloor"], capture_output=True, text=True, check=False)
    assert completed.stdout == "--site\n"
    if shutil.which("man"):
        page = subprocess.run(["man", "-l", "--warnings", place / "share/man/man1/stilfloor.1"], capture_output=True, text=True, check=False,
                              env={**os.environ, "MANROFFOPT": "-c"})
        assert "EXIT STATUS" in page.stdout and not page.stderr
    made("uninstall", f"PREFIX={place}")
    assert files_of(place) == set()


def test_the_archive_works_where_it_is_unpacked(place: pathlib.Path) -> None:
    made("dist", f"DIST={place}/made")
    archive, = (place / "made").glob("*.tar.gz")
    subprocess.run(["sha256sum", "--quiet", "-c", f"{archive.name}.sha256"], cwd=archive.parent, check=True)
    subprocess.run(["tar", "-xzf", archive, "-C", place], check=True)
    works(place / archive.name.removesuffix(".tar.gz"))


@needs_root
@pytest.mark.skipif(not shutil.which("dpkg-deb"), reason="dpkg-deb isn't there: the Debian package is left out")
def test_the_debian_package_is_installed_used_and_removed(place: pathlib.Path) -> None:
    made("deb", f"DIST={place}/made")
    package, = (place / "made").glob("*.deb")
    if shutil.which("lintian"):
        judged = subprocess.run(["lintian", "--allow-root", "--fail-on", "error", package], capture_output=True, text=True, check=False)
        assert judged.returncode == 0, judged.stdout
    root = place / "root"
    for folder in ("info", "updates", "triggers"):
        (root / "var/lib/dpkg" / folder).mkdir(parents=True)
    (root / "var/lib/dpkg/status").touch()
    dpkg = ["dpkg", f"--root={root}", "--force-script-chrootless", "--force-depends"]
    subprocess.run([*dpkg, "--install", package], check=True, capture_output=True)
    works(root / "usr")
    subprocess.run([*dpkg, "--purge", "falltamarind"], check=True, capture_output=True)
    assert not (root / "usr").exists()


@pytest.mark.skipif(not all(map(importlib.util.find_spec, ("pip", "setuptools", "wheel"))),
                    reason="pip, setuptools or wheel isn't there: an installation by pip is left out")
def test_pip_leaves_nothing_beside_the_sources(tmp_path: pathlib.Path) -> None:
    tracked = subprocess.run(["git", "ls-files", "-z", "floor"], cwd=TOP, capture_output=True, text=True, check=True).stdout.split("\0")
    for name in filter(None, tracked):
        (tmp_path / name).parent.mkdir(parents=True, exist_ok=True)
        shutil.copy(TOP / name, tmp_path / name)
    before = files_of(tmp_path)
    subprocess.run([sys.executable, "-m", "pip", "install", "--quiet", "--no-build-isolation", "--no-deps", "--no-index", "--target",
                    tmp_path / "there", tmp_path / "floor"], check=True, capture_output=True, cwd=tmp_path)
    after = {name for name in files_of(tmp_path) if not name.startswith("there/")}
    assert after == before
    told = subprocess.run([sys.executable, "-m", "stilfloor", "--version"], env={"PYTHONPATH": str(tmp_path / "there")}, cwd=tmp_path,
                          capture_output=True, text=True, check=False)
    assert told.stdout.startswith("stilfloor ")
