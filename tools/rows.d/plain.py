"""Transcripts, run as they stand."""

from process import Ended


def run(transcripts, start, report):
    """Runs each transcript through a program of its own, which `start` makes."""
    for transcript in transcripts:
        _run_one(transcript.rows, start, report)


def _run_one(rows, start, report):
    done = 0
    program = None
    try:
        program = start()
        for row in rows:
            report.answer(row, program.ask(row.sent))
            done += 1
        program.finish()
    except Ended as fault:
        tell_end(rows, done, fault, report)
    finally:
        if program is not None:
            program.kill()


def tell_end(rows, done, fault, report):
    """Tells why the program ended when so many test cases were done, and that the others weren't asked."""
    if done == len(rows):
        report.fault(f"{rows[-1].place}: behind the last command: {fault}")
        return
    report.row_failed(rows[done], f"nothing: {fault}")
    for row in rows[done + 1:]:
        report.row_failed(row, "nothing: the program had ended before")
