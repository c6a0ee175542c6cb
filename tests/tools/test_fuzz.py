"""Runs each input of fuzz/corpus once, and tries whether it finds a planted bug for each law.

Nothing here is random, takes the time or needs clang. bin/fuzz looks for new inputs.
"""
import contextlib
import glob
import io
import os
import re
import shutil
import unittest

import programs
import test_cargo
from programs import ROOT, Folder, output_of, run, text_of, write_file

CORPUS = ROOT + "/fuzz/corpus"
COPY = ROOT + "/fuzz/out/test/copy"
QUOTED = "byte == b'\"' || byte == b'\\\\'"
# A bug for each law: the law, the file of the Cargo workspace, the text there, and the bug.
PLANTED = [
    ("pieces", "pgn_lexer/src/lexer.rs", "        self.count += used as u64;",
     "        self.count += (used.max(piece.len().min(1))) as u64;"),
    ("told again", "pgn_game/src/converter.rs",
     "let fault = Fault { at, reason };\n                self.fault = Some(fault);",
     "let fault = Fault { at, reason };"),
    ("reads", "pgn_game/src/read_buffer.rs", "self.start += used;", "self.start += used.max(1);"),
    ("lines", "pgn_layout/src/current_line.rs", "line.push(b'\\n');", "line.push(b' ');"),
    ("fixed point", "pgn_layout/src/tag_line.rs", QUOTED, "byte == b'\\\\'"),
    ("fixed point", "pgn_layout/src/tag_line.rs", QUOTED, "byte == b'\"'"),
    ("failing sink", "pgn_layout/src/sink.rs", "out.write_some(&bytes[written..])?",
     "out.write_some(&bytes[written..]).unwrap_or(bytes.len() - written)"),
    ("checked", "pgn_game/src/game.rs", "|| at != expected.at", "|| at == expected.at"),
    ("limits", "pgn_game/src/reader.rs", "Err(Reason::TooDeep)", "Err(Reason::NotAMove)"),
    ("FEN", "chess_text/src/fen.rs", "Buffer::new().format(position.full())",
     "Buffer::new().format(position.half())"),
]


class Corpus(test_cargo.CargoTest):
    def setUp(self):
        """There is a copy of the workspace and the laws, in which a bug can be planted."""
        super().setUp()
        shutil.copytree(ROOT + "/fuzz", COPY + "/fuzz", dirs_exist_ok=True,
                        ignore=shutil.ignore_patterns("out", "corpus", "*.lock"))
        os.makedirs(COPY + "/cargo", exist_ok=True)
        test_cargo.write_out(COPY + "/cargo/out")

    def check_run(self):
        """Builds the laws over the workspace, and runs the corpus."""
        # the corpus takes a moment, so what is quick to build is quickest
        self.passed("build", "--manifest-path", COPY + "/fuzz/Cargo.toml", target="fuzz",
                    folder=COPY + "/cargo/out", CARGO_PROFILE_DEV_OPT_LEVEL="0")
        return run([test_cargo.OUT + "/fuzz/debug/pgn_fuzz", CORPUS], timeout=300)

    def test_no_law_is_broken(self):
        said = output_of(self.check_run(), err=None)
        self.assertEqual(said.decode(), "%d inputs, no finding\n" % len(os.listdir(CORPUS)))

    def test_a_planted_bug_is_found_by_each_law(self):
        for law, name, old, new in PLANTED:
            with self.subTest(law):
                path = "%s/cargo/out/crates/%s" % (COPY, name)
                right = text_of(path)
                self.assertEqual(right.count(old), 1, old)
                write_file(path, right.replace(old, new))
                try:
                    ran = self.check_run()
                finally:
                    write_file(path, right)
                self.assertEqual(ran.returncode, 101, ran.stderr.decode()[-2000:])
                self.assertIn("%s: " % law, ran.stderr.decode())


class Files(Folder, unittest.TestCase):
    """What is there, without cargo."""

    def test_the_corpus_is_small(self):
        sizes = [os.path.getsize(it) for it in glob.glob(CORPUS + "/*")]
        self.assertTrue(50 < len(sizes) < 500 and sum(sizes) < 200_000, (len(sizes), sum(sizes)))

    def test_an_input_written_by_hand_stays(self):
        """Here a program that keeps nothing stands for libFuzzer."""
        fuzz, folder = programs.load("bin/fuzz"), self.folder
        fuzz.OUT, fuzz.CORPUS, fuzz.seeds = folder + "/out", folder + "/corpus", lambda: folder
        for name in ("09e2b5bc40dfc0980b9be3410625549275e492eb", "two-backslashes"):
            self.put("corpus/" + name, "*")
        with contextlib.redirect_stdout(io.StringIO()) as said:
            fuzz.keep("true")
        self.assertEqual(said.getvalue(), "1 inputs, 1 bytes\n")
        self.assertEqual(os.listdir(fuzz.CORPUS), ["two-backslashes"])

    def test_each_law_has_a_planted_bug(self):
        """The laws of fuzz/src/laws.rs, those that bin/fuzz lists, and the bugs."""
        text = text_of(ROOT + "/fuzz/src/laws.rs")
        laws = {it.lower() for it in re.findall(r"^/// \*([\w ]+)\*: ", text, re.MULTILINE)}
        self.assertEqual({it[0].lower() for it in PLANTED}, laws)
        listed = re.findall(r"^    (\w[\w ]+?)  +\w", text_of(ROOT + "/bin/fuzz").split(
            "status:")[0], re.MULTILINE)
        self.assertEqual({it.lower() for it in listed if not it.startswith("bin/")}, laws)
