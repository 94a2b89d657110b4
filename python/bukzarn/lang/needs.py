"""What a flight will need (document 02, card 10): the numbers of the program `need` beside their limits."""
BUDGET, LOG_LENGTH, LOG_RECORD = 100_000, 16_384, 10
BAR = 20

# The engine's rooms. Steps and log records have the limits of a call.
ROOMS = {"bindings": 1_024, "other-bindings": 1_024, "pieces": 256, "other-pieces": 256, "cells": 128,
         "other-cells": 128, "labels": 64, "advice": 64, "frames": 512}


def read(text):
    """The numbers of a listing of the program `need`, by their words."""
    return {word: int(number) for word, number in (line.split() for line in text.splitlines())}


def limits(budget=BUDGET, log=LOG_LENGTH):
    """The limit of each number in a call with this budget and a log of so many bytes."""
    return {"steps": budget, **ROOMS, "log": log // LOG_RECORD}


def bar(number, limit):
    """How much of a limit is needed, as a bar; one place at least of what is needed at all."""
    filled = min(BAR, -(-BAR * number // limit)) if limit else BAR * (number > 0)
    return "#" * filled + "." * (BAR - filled)


def table(numbers, budget=BUDGET, log=LOG_LENGTH):
    """Each number beside its limit, with a bar, and what follows for a run."""
    most = limits(budget, log)
    lines = [f"{word:<15}{number:>9,} of {most[word]:>9,}  {bar(number, most[word])}"
             + ("  over" if number > most[word] else "") for word, number in numbers.items()]
    over = [word for word, number in numbers.items() if number > most[word]]
    if over:
        lines.append(f"Over the limit: {', '.join(over)}. A run may end there.")
    else:
        lines.append("All are within their limits: every run is done or aborted, whatever the frame.")
    return "\n".join(lines) + "\n"
