"""The examples in Rust, built over the archive of the library."""
import os
import subprocess

from crates import ROOT


def built_examples(target, library=None):
    """Builds the examples, and tells where they lie. The archive is made of libibc_c.a in this folder. Where none is given it is that of the folder IBCWORLD_LIB, or
    made of what tools/static_library keeps."""
    around = {**os.environ, "CARGO_TARGET_DIR": target}
    if library or "IBCWORLD_LIB" not in around:
        library = library or subprocess.run([f"{ROOT}/tools/static_library"], stdout=subprocess.PIPE, text=True, check=True).stdout.strip()
        subprocess.run([f"{ROOT}/tools/library_archive", library, f"{target}/lib"], check=True)
        around["IBCWORLD_LIB"] = f"{target}/lib"
    manifest = f"{ROOT}/examples/library/rust/Cargo.toml"
    subprocess.run(["cargo", "build", "--quiet", "--release", "--offline", "--manifest-path", manifest], env=around, check=True)
    return f"{target}/release"
