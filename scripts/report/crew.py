"""Several processes that take one piece of work after the other, and many each.

They end when there is no more to take; so they do if the process that started them is gone.
"""
import json
import os
import signal

# (as many numbers as a pipe surely holds)
AHEAD, NUMBER = 512, 4


def work_on(orders, results, items, work):
    """What each process does: a number comes in, and goes out with what the work answers."""
    while len(order := os.read(orders, NUMBER)) == NUMBER:
        number = int.from_bytes(order, "big")
        answer = json.dumps([number, work(items[number])[:800]]) + "\n"
        os.write(results, answer.encode())


def started(count, items, work):
    """Starts the processes; answers their numbers, where orders go and whence results come."""
    orders, to_crew = os.pipe()
    from_crew, results = os.pipe()
    crew = []
    for _ in range(count):
        child = os.fork()
        if child:
            crew.append(child)
            continue
        try:
            signal.signal(signal.SIGINT, signal.SIG_DFL)
            os.close(to_crew)
            os.close(from_crew)
            work_on(orders, results, items, work)
        finally:
            os._exit(0)
    os.close(orders)
    os.close(results)
    return crew, to_crew, from_crew


def shared(items, count, work):
    """Has each item worked on; yields it with the answer, as they come.

    Nothing comes of an item whose process was ended.
    """
    crew, to_crew, from_crew = started(count, items, work)
    given = min(AHEAD, len(items))
    os.write(to_crew, b"".join(it.to_bytes(NUMBER, "big") for it in range(given)))
    if given == len(items):
        os.close(to_crew)
    with open(from_crew, encoding="utf-8") as answers:
        for line in answers:
            number, answer = json.loads(line)
            if given < len(items):
                give(to_crew, given)
                given += 1
                if given == len(items):
                    os.close(to_crew)
            yield items[number], answer
    for child in crew:
        os.waitpid(child, 0)


def give(to_crew, number):
    """Orders one more, if a process is left to take it."""
    try:
        os.write(to_crew, number.to_bytes(NUMBER, "big"))
    except BrokenPipeError:
        pass
