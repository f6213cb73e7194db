"""The Debian packages of other validators, and how C++ is compiled."""

import os
import shutil
import subprocess

CXX = ["g++", "-O3", "-DNDEBUG", "-march=x86-64-v2", "-std=c++17"]


def version_of(package):
    asked = ["dpkg-query", "-W", "-f", "${db:Status-Status} ${Version}", package]
    found = subprocess.run(asked, capture_output=True, text=True, check=False).stdout.split()
    return found[1] if found[:1] == ["installed"] else None


def install(package):
    """Installs a package if this is root. Returns its version, or nothing."""
    if os.geteuid() == 0 and shutil.which("apt-get"):
        command = ["apt-get", "install", "-y", "--no-install-recommends", package]
        subprocess.run(command, capture_output=True, check=False)
    return version_of(package)
