#!/usr/bin/env python3
"""compare_definitions.py SEED COUNT RECORDS: run the definitions by antt on generated scripts.

For each of COUNT scripts of at most RECORDS records that `reference/` generates from SEED, three things are stated and proved by
computing: that `script_log` gives the log that the second program wrote; that the step on lent words, record after record in one
log area, gives the same; and that the ledger, fed the calls, answers and ended waits alone, has the kernel's current priorities,
queue orders and running task after every record. Needs rt and cargo.
Exit status 0 if every one holds."""
import pathlib
import shutil
import subprocess
import sys
import tempfile

HEAD = """use Rattle.std.specs.Prelude.{ℕ, zero, suc, ◌≡◌, Bool, true, false, ◌&&◌, List, [], ◌∷◌, ◌++◌, map, length, take, leb, eqb}
use mathlib.Core.Path.{refl}
use lib.ListN.{replicate}
use Rattle.std.specs.Prelude.{Ok, Err}
use Rattle.model.specs.declared.call.Progress.TheVariants.{Answered, Over, NoArea}
use Rattle.model.specs.Sizes.{store_bytes, outbox_bytes, log_bytes}
use Rattle.model.specs.Lists.{all, same, count_from, zeros}
use Rattle.model.specs.Facts.{queue}
use Rattle.model.specs.Kernel.{Kernel, fresh}
use Rattle.model.specs.Words.{words}
use Rattle.model.specs.World.{Lent, running, queue_order}
use Rattle.model.specs.Step.{step, fresh_lent}
use Rattle.model.specs.Record.{read_record, record_message}
use Rattle.model.specs.Lent.{Areas, lent_record}
use Rattle.model.specs.Compute.{compute}
use Rattle.model.specs.Script.{script_log}
use Rattle.model.specs.Ledger.{Ledger, fresh_ledger, entered, ledger_priorities, ledger_order, ledger_runs}

abbrev agree : Kernel → Ledger → Bool
agree k l =
    same (k.tasks.current) (ledger_priorities l) && eqb (running k) (ledger_runs l)
    && all (λ p. all (λ n. same (queue_order k (queue p n)) (ledger_order l (queue p n))) (count_from 0 9)) (count_from 2 5)

abbrev areas : Areas
areas = record { words = words fresh; store = zeros store_bytes; outbox = zeros outbox_bytes; log = replicate log_bytes 170 }

abbrev lent_run : ℕ → Areas → List ℕ → ℕ → List ℕ
lent_run zero a s at = 0 ∷ []
lent_run (suc n) a s at =
    let w = lent_record a s at in
    take w.written (w.areas.log)
    ++ elim w.progress [ Answered x next ↦ lent_run n w.areas s next.at | Over ↦ [] | NoArea ↦ 0 ∷ [] ]

abbrev follow : ℕ → Lent → Ledger → List ℕ → ℕ → Bool
follow zero x l s at = true
follow (suc n) x l s at =
    elim (leb (length s) at) [ true ↦ true | false ↦
    elim (read_record s at) [ Err stop ↦ true | Ok r ↦
      let o = step x r.call (record_message s at) in
      let m = entered l r.call o.answer (map (λ e. (e.task, e.code)) o.ended) in
      agree (o.lent.kernel) m && follow n o.lent m s r.next.at ] ]

"""


def numbers(data):
    return "(" + " ∷ ".join([str(b) for b in data] + ["[]"]) + ")"


def main():
    seed, count, records = sys.argv[1:4]
    root = pathlib.Path(__file__).resolve().parent.parent
    with tempfile.TemporaryDirectory() as folder:
        folder = pathlib.Path(folder)
        scripts = folder / "scripts"
        scripts.mkdir()
        subprocess.run(
            ["cargo", "run", "--release", "--offline", "--quiet", "--bin", "generate", "--",
             seed, count, str(scripts), "--each", "--records", records],
            cwd=root / "reference", check=True, stderr=subprocess.DEVNULL)
        crate = folder / "crates/model"
        (folder / "crates").mkdir()
        (folder / "crates.txt").write_text("model:\n")
        for part in ("src", "specs", "proofs"):
            shutil.copytree(root / "crates/model" / part, crate / part)
        text = HEAD
        for n in range(int(count)):
            script = numbers((scripts / f"{n}.script").read_bytes())
            log = numbers((scripts / f"{n}.log").read_bytes())
            text += f"log{n} : script_log {script} ≡ {log}\nunfolding script_log\nlog{n} = refl\n\n"
            text += f"lent{n} : lent_run 20000 areas {script} 0 ≡ {log}\nunfolding compute\nlent{n} = refl\n\n"
            text += f"ledger{n} : follow 20000 fresh_lent fresh_ledger {script} 0 ≡ true\n"
            text += f"unfolding compute\nledger{n} = refl\n\n"
        (crate / "specs/Compare.antt").write_text(text)
        lib = crate / "specs/Lib.antt"
        lib.write_text(lib.read_text() + "pub mod Compare\n")
        run = subprocess.run(["rt", "check"], cwd=crate, capture_output=True, text=True)
        bad = [line for line in run.stdout.splitlines() if "Compare.antt" in line and "error" in line]
        for line in bad[:20]:
            print(line[:300])
        print(f"{count} scripts, {len(bad)} statements that do not hold")
        if run.returncode != 0 and not bad:
            print(run.stdout[-2000:] + run.stderr[-2000:])
        sys.exit(0 if run.returncode == 0 else 1)


if __name__ == "__main__":
    main()
