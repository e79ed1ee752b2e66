#!/usr/bin/env python3
"""Builds crate_answers.rs, the program by which the crate rust-ini answers the questions of `ini_replay answers`.

    build.py SOURCE FOLDER [WORD ..]

SOURCE is the folder of the crate's source, with its Cargo.toml: rust-ini 0.21.3 with its default features. FOLDER is made
where it isn't there. The program is built four times: FOLDER/plain/release/crate_answers is over the crate as it is,
FOLDER/brackets/.. over the crate with its feature `brackets-in-section-names`, FOLDER/notes/.. with `inline-comment`, and
FOLDER/notes_brackets/.. with both; the paths are printed.
The further words go to `cargo build`, as `--offline` and `--config FILE` where the crate's own dependencies lie in a folder.
"""
import pathlib
import subprocess
import sys

MANIFEST = """[package]
name = "crate_answers"
version = "0.1.0"
edition = "2021"

[[bin]]
name = "crate_answers"
path = "{program}"

[features]
brackets = ["rust-ini/brackets-in-section-names"]
notes = ["rust-ini/inline-comment"]

[dependencies]
rust-ini = {{ path = "{source}" }}

[workspace]
"""


def main():
    if len(sys.argv) < 3:
        sys.exit(__doc__)
    source, folder = (pathlib.Path(word).resolve() for word in sys.argv[1:3])
    program = pathlib.Path(__file__).resolve().with_name("crate_answers.rs")
    folder.mkdir(parents=True, exist_ok=True)
    (folder / "Cargo.toml").write_text(MANIFEST.format(program=program, source=source))
    for name, features in (("plain", ""), ("brackets", "brackets"), ("notes", "notes"), ("notes_brackets", "notes brackets")):
        words = ["cargo", "build", "--release", "--quiet", "--target-dir", str(folder / name)]
        words += ["--features", features, *sys.argv[3:]]
        subprocess.run(words, cwd=folder, check=True)
        print(folder / name / "release/crate_answers")


if __name__ == "__main__":
    main()
