"""Tries examples/page in a browser without a window: at ten places of the slider the text is what `cat --at` prints of that version. So is
it where the name of a save leads to; each device and each save is named, as `log` and `marks` print them.

    python3 .ci/page.py ROOT PROGRAM BROWSER FILE..

Runs in a folder of its own. Each difference is printed; the last line tells how many texts were compared.
"""

import os
import pathlib
import re
import subprocess
import sys
import urllib.parse

# Goes to each place as a hand would, and then to each save; and writes down what stands there then.
WATCH = """<script>
const found = [%s].map(place => {
    slider.value = place;
    slider.dispatchEvent(new Event("input"));
    return encodeURIComponent(text.textContent);
});
for (const link of document.querySelectorAll("#saves a")) {
    link.click();
    for (const told of [link.textContent, slider.value, document.getElementById("what").textContent, text.textContent])
        found.push(encodeURIComponent(told));
}
found.push([...document.querySelectorAll("#people span")].map(name => name.textContent).join());
const told = document.createElement("pre");
told.id = "found";
told.textContent = found.join(" ");
document.body.append(told);
</script>"""


def printed(program, *words):
    return subprocess.run([program, *words], stdout=subprocess.PIPE, check=True).stdout.decode()


def versions(program, file):
    """The version of the first so many events, for each number of them: those that none of the others follows."""
    heads = {}
    yield "root"
    for line in printed(program, "log", "--", file).split("\n")[:-1]:
        event, parents, _ = line.split(" ", 2)
        for parent in parents.split(","):
            heads.pop(parent, None)
        heads[event] = True
        yield ",".join(heads)


def main(root, program, browser, files):
    compared = wrong = 0
    for number, file in enumerate(files):
        page = subprocess.run([sys.executable, "-I", "-S", pathlib.Path(root, "examples", "page"), file], stdout=subprocess.PIPE, check=True).stdout.decode()
        known = list(versions(program, file))
        places = sorted({(len(known) - 1) * step // 9 for step in range(10)})
        made = pathlib.Path(f"page{number}.html")
        made.write_text(page.replace("</html>", WATCH % ",".join(map(str, places)) + "</html>"), encoding="utf-8", newline="\n")
        words = ["--headless", "--no-sandbox", "--disable-gpu", "--disable-dev-shm-usage", "--user-data-dir=" + os.path.abspath("profile"), "--virtual-time-budget=10000"]
        shown = subprocess.run([browser, *words, "--dump-dom", made.resolve().as_uri()], stdout=subprocess.PIPE, stderr=subprocess.DEVNULL, timeout=100).stdout.decode()
        found = re.search(r'<pre id="found">([^<]*)</pre>', shown)
        told = [urllib.parse.unquote(text) for text in found.group(1).split(" ")] if found else []
        saves = [line.split(" ") for line in printed(program, "marks", "--", file).split("\n")[:-1]]
        if len(told) != len(places) + 4 * len(saves) + 1:
            print(f"page: {file}: the browser shows {len(told)} texts for {len(places)} places and {len(saves)} saves")
            wrong += 1
            continue
        texts = [(known[place], f"after {place} events", text) for place, text in zip(places, told)]
        ids = [line.split(" ", 1)[0] for line in printed(program, "log", "--", file).split("\n")[:-1]]
        for (save, label), at in zip(saves, range(len(places), len(told) - 1, 4)):
            name, place, what, text = told[at : at + 4]
            if (name, int(place)) != (label, ids.index(save) + 1) or f": {save} saves {label}, " not in what:
                print(f"page: {file}: the save {save} is told as {name}, {place}, {what}")
                wrong += 1
            # One that didn't know all that stands before it says so, and where its own text is found.
            version = known[int(place)] if what.endswith("; it didn't know all that stands here: see egw cat --at " + save) else save
            texts.append((version, "at the save " + save, text))
        if told[-1].split(",") != list(dict.fromkeys(event.rsplit(":", 1)[0] for event in ids)):
            print(f"page: {file}: other devices: {told[-1]}")
            wrong += 1
        for version, where, text in texts:
            compared += 1
            if text != printed(program, "cat", "--at", version, "--", file):
                print(f"page: {file}: another text {where}")
                wrong += 1
    print(f"page: {compared} texts compared in {os.path.basename(browser)}, of {len(files)} files")
    return 1 if wrong or not compared else 0


if __name__ == "__main__":
    sys.exit(main(sys.argv[1], sys.argv[2], sys.argv[3], sys.argv[4:]))
