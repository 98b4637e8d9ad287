"""What a tool's last run came to, in a file beside it that the repository keeps."""
import datetime
import os


def tell_last(tool: str, line: str) -> None:
    """Prints the last line of a run, and keeps it with its day as tools/NAME.last. `tool` is the path of the tool."""
    print(line)
    with open(f"{os.path.realpath(tool)}.last", "w", encoding="utf-8") as file:
        file.write(f"{datetime.date.today()}: {line}\n")
