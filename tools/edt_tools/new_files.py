"""New files, each written whole or not at all, and never in the place of another."""
import contextlib
import os

from .words import Refusal


def refuse_existing(path):
    """Refuses a path at which something is there, a broken link as well."""
    if os.path.lexists(path):
        raise Refusal("%s: is there already" % path)


def make_folder(folder):
    """Makes a folder where it is absent."""
    try:
        os.makedirs(folder, exist_ok=True)
    except OSError as error:
        raise Refusal("%s: %s" % (folder, error.strerror)) from error


class NewFile:
    """A file under a temporary name in the folder of its path. `publish` gives it its name; `discard` takes it away."""

    def __init__(self, path):
        refuse_existing(path)
        folder, name = os.path.split(path)
        self.path = path
        self.temporary = os.path.join(folder, ".%s.%d.part" % (name, os.getpid()))
        self.is_published = False
        try:
            self.file = open(self.temporary, "xb")
        except OSError as error:
            raise Refusal("%s: %s" % (self.temporary, error.strerror)) from error

    def write(self, piece):
        """Appends bytes."""
        try:
            self.file.write(piece)
        except OSError as error:
            raise Refusal("%s: %s" % (self.path, error.strerror)) from error

    def close(self):
        """Brings all bytes to the disk."""
        try:
            self.file.flush()
            os.fsync(self.file.fileno())
            self.file.close()
        except OSError as error:
            raise Refusal("%s: %s" % (self.path, error.strerror)) from error

    def publish(self):
        """Gives the closed file its name, by a link, which replaces nothing."""
        try:
            os.link(self.temporary, self.path)
        except FileExistsError as error:
            raise Refusal("%s: is there already" % self.path) from error
        except OSError as error:
            raise Refusal("%s: can't be linked to its name: %s" % (self.path, error.strerror)) from error
        self.is_published = True

    def withdraw(self):
        """Takes the name away again that `publish` gave."""
        if self.is_published:
            os.unlink(self.path)
            self.is_published = False

    def discard(self):
        """Takes the temporary name away; a published file keeps its own."""
        with contextlib.suppress(OSError):
            self.file.close()
        with contextlib.suppress(OSError):
            os.unlink(self.temporary)


def write_new(path, contents):
    """Writes one new file of these bytes."""
    file = NewFile(path)
    try:
        file.write(contents)
        file.close()
        file.publish()
    finally:
        file.discard()
