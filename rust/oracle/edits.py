#!/usr/bin/env python3
"""Shows that the comparison sees: each edit of a copy of 000 must be reported as a difference.

    YUGLASNO_000=DIR YUGLASNO_LIB=DIR python3 rust/oracle/edits.py [NAME]
"""
import os
import pathlib
import shutil
import subprocess
import sys
import tempfile

HERE = pathlib.Path(__file__).resolve().parent

# name: file, old text, new text; a number after them says which of several places
EDITS = {
    "done_of_a_listing_is_a_header": ("sync.rs", "self.rx.advance(DENT_V1_SIZE);\n                return", "self.rx.advance(HEADER_SIZE);\n                return"),
    "data_header_dropped_first": ("sync.rs", "        let data_len = self.peek_u32(4) as usize;\n", "        let data_len = self.peek_u32(4) as usize;\n        if data_len + 8 > self.rx.capacity() { self.rx.advance(HEADER_SIZE); }\n"),
    "features_before_flags": ("sync.rs", "        if COMPRESSION.iter().filter", "        self.channel.session.require_feature(Feature::SendrecvV2)?;\n        if COMPRESSION.iter().filter"),
    "nothing_fits_exactly": ("sync.rs", "if total <= window.len()", "if total < window.len()"),
    "recv_next_does_not_compact": ("sync.rs", "        self.rx.compact();\n        if self.read_next_id(&[SyncId::Data", "        if self.read_next_id(&[SyncId::Data"),
    "send_done_does_not_compact": ("sync.rs", "        self.rx.compact();\n        self.read_next_id(&[SyncId::Okay", "        self.read_next_id(&[SyncId::Okay"),
    "closed_push_keeps_its_fail": ("sync.rs", "Err(Error::ChannelClosed) => match self.read_next_id", "Err(Error::ReceiveBufferFull) => match self.read_next_id"),
    "quit_answers_the_close": ("sync.rs", "sent.and(closed)", "closed.and(sent)"),
    "quit_closes_no_more": ("sync.rs", "        let closed = self.channel.close().await;\n", "        sent?; let sent = Ok(());\n        let closed = self.channel.close().await;\n"),
    "fail_text_cut_by_one": ("sync.rs", "let kept = msg_len.min(self.rx.capacity());", "let kept = msg_len.min(self.rx.capacity() - 1);"),
    "fail_rest_left": ("sync.rs", "        while left > 0 {", "        while left > 1 {"),
    "ctime_for_mtime": ("sync/format.rs", "mtime: i64_at(b, 52)", "mtime: i64_at(b, 60)"),
    "empty_data_is_written": ("sync.rs", "        for chunk in data.chunks(SYNC_DATA_MAX) {", "        if data.is_empty() { self.write_request(SyncId::Data, &[data]).await?; }\n        for chunk in data.chunks(SYNC_DATA_MAX) {"),
    "chunks_of_65535": ("sync/format.rs", "SYNC_DATA_MAX: usize = 64 * 1024", "SYNC_DATA_MAX: usize = 65_535"),
    "compacts_early": ("base/recv_buf.rs", "if self.tail >= self.buf.len() {\n                self.compact();", "if self.tail + 1 >= self.buf.len() {\n                self.compact();"),
    "reads_once_more": ("base/recv_buf.rs", "while self.tail - self.head < n {", "while self.tail - self.head < (n + 1).min(self.buf.len()) {"),
    "last_marker": ("base/protocol/features.rs", ".position(|w| w == needle)", ".rposition(|w| w == needle)"),
    "no_semicolon": ("base/protocol/features.rs", "|b| *b == b',' || *b == b';'", "|b| *b == b','"),
    "zero_has_no_digit": ("base/decimal.rs", "return &out[9..];", "return &out[10..];"),
    "errno_before_the_record": ("sync.rs", "        self.rx.advance(STAT_V2_SIZE);\n\n        if stat.error", "        if stat.error == 0 { self.rx.advance(STAT_V2_SIZE); }\n\n        if stat.error"),
}


def main():
    original = (HERE / "../.." / os.environ.get("YUGLASNO_000", "../shared/docs/src")).resolve()
    if not (original / "libadb/src/sync.rs").is_file():
        print("000's source is not at YUGLASNO_000: left out")
        return 0
    names = sys.argv[1:] or list(EDITS)
    unseen = []
    with tempfile.TemporaryDirectory() as folder:
        folder = pathlib.Path(folder)
        for name in names:
            file, old, new = EDITS[name]
            copy = folder / "000"
            shutil.rmtree(copy, ignore_errors=True)
            shutil.copytree(original, copy)
            path = copy / "libadb/src" / file
            text = path.read_text()
            assert text.count(old) == 1, f"{name}: {text.count(old)} places"
            path.chmod(0o644)
            path.write_text(text.replace(old, new))
            env = dict(os.environ, YUGLASNO_000=str(copy), CARGO_TARGET_DIR=str(folder / "target"))
            subprocess.run(["cargo", "build", "--offline", "--release", "-q", "-p", "oracle"], cwd=HERE.parent, env=env, check=True)
            run = subprocess.run([folder / "target/release/oracle", "lists", "20000", "1"], capture_output=True, text=True)
            seen = run.returncode == 1 and "differs; " in run.stdout
            print(f"{name}: {run.stdout.strip().splitlines()[-1] if seen else 'NOT SEEN'}", flush=True)
            unseen += [] if seen else [name]
    print(f"{len(names) - len(unseen)} of {len(names)} edits seen")
    return 1 if unseen else 0


sys.exit(main())
