"""Tables that scripts print: on standard output, in a folder, and in pages between two marks, so that none is edited by hand.

    /usr/bin/python3 bench/marks.py FOLDER

puts the tables that scripts kept in FOLDER (their option --tables) into the pages that have their marks, and names those that no page has.
"""
import glob
import os
import re
import sys

ROOT = os.path.dirname(os.path.dirname(os.path.abspath(__file__)))
PAGES = ("*.md", "docs/**/*.md", "examples/*.md", "recipes/*.md", "survey/*.md", "web/*.md")


def add_options(parser):
    """The options of a script that prints tables."""
    parser.add_argument("--page", action="store_true", help="put the tables into the pages that have their marks")
    parser.add_argument("--tables", metavar="FOLDER", dest="kept_tables", help="keep each table there, as NAME.md, with its marks")


def publish(options, script, name, lines):
    """Prints the lines of a table as they come, and keeps and puts them where the options say."""
    told = []
    print()
    for line in lines:
        print(line, flush=True)
        told.append(line)
    text = "\n".join([f"<!-- {name}: printed by {script} -->", "", *told, "", f"<!-- end of {name} -->"])
    if options.kept_tables:
        os.makedirs(options.kept_tables, exist_ok=True)
        with open(os.path.join(options.kept_tables, f"{name}.md"), "w", encoding="utf-8") as file:
            file.write(text + "\n")
    if options.page and not put(text):
        sys.exit(f"{text.splitlines()[0]}: this mark and its end don't stand in one page once")


def put(text):
    """Puts a table with its marks in the place of the one that a page has; whether they stand in one page once."""
    begin, *_, end = text.split("\n")
    between = re.compile(re.escape(begin) + r"\n.*?" + re.escape(end), re.S)
    names = [path for it in PAGES for path in glob.glob(f"{ROOT}/{it}", recursive=True)]
    pages = {path: page for path in names if begin in (page := text_in(path))}
    if [len(between.findall(page)) for page in pages.values()] != [1]:
        return False
    for path, page in pages.items():
        with open(path, "w", encoding="utf-8") as file:
            file.write(between.sub(lambda _: text, page))
    return True


def text_in(path):
    with open(path, encoding="utf-8") as file:
        return file.read()


def main(words):
    if len(words) != 1:
        sys.exit("usage: bench/marks.py FOLDER")
    told = {path: put(text_in(path).rstrip("\n")) for path in sorted(glob.glob(os.path.join(words[0], "*.md")))}
    for path, is_put in told.items():
        print(f"{path}: {'put into its page' if is_put else 'its marks do not stand in one page once'}")
    return 0 if told and all(told.values()) else 1


if __name__ == "__main__":
    sys.exit(main(sys.argv[1:]))
