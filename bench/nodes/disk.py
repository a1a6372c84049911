"""A small file system in memory that can be full. It takes root."""
import contextlib
import subprocess

PAGE = 4096


class Disk:
    """A file system of a megabyte."""

    def __init__(self, folder):
        self.folder, self.files = folder, 0
        folder.mkdir()
        subprocess.run(["mount", "-t", "tmpfs", "-o", "size=1m", "tmpfs", folder], check=True)

    def file(self):
        """Where a file can be."""
        self.files += 1
        return self.folder / f"{self.files}"

    def fill(self, path, left):
        """Fills it, but for so many bytes of the last page of a file, whose rest gets empty lines."""
        with open(self.folder / "rest", "wb", buffering=0) as rest, contextlib.suppress(OSError):
            while True:
                rest.write(bytes(PAGE))
        with open(path, "ab", buffering=0) as out, contextlib.suppress(OSError):
            out.write(b"\n" * max(0, -path.stat().st_size % PAGE - left))

    def empty(self):
        for file in self.folder.iterdir():
            file.unlink()

    def close(self):
        subprocess.run(["umount", "-l", self.folder], check=True)
