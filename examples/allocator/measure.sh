#!/bin/sh
# Records three programs over an allocator, and prints the figures of each log: measure.sh FOLDER [LIBRARY ..]
#
# A Python program, `git log -p` of the 645 commits of this project up to 26bd3c4, and a C++ compiler, three times each.
# FOLDER is made and gets the logs; the libraries are preloaded after the recorder, and without one the C library's
# allocator is measured.
set -eu
here=$(cd "$(dirname "$0")" && pwd)
mkdir "$1"
logs=$(cd "$1" && pwd)
shift
work=$(mktemp -d)
trap 'rm -rf "$work"' EXIT
cc -O2 -shared -fPIC -o "$work/record.so" "$here/record.c" -ldl -pthread
cat > "$work/task.py" <<'END'
import json, random, re
random.seed(1)
rows = [{"name": "n%d" % i, "values": [random.random() for _ in range(40)], "text": "word " * (i % 50)} for i in range(6000)]
text = json.dumps(rows)
back = json.loads(text)
words = {}
for word in re.findall(r"[a-z]+", text):
    words[word] = words.get(word, 0) + 1
print(len(text), len(back), len(words))
END
cat > "$work/task.cpp" <<'END'
#include <regex>
#include <string>
int main(int n, char **words) { return std::regex_match(std::string(words[n - 1]), std::regex("(a|b)*c[0-9]+")); }
END
python=$(python3 -c 'import sys; print(sys.executable)')
recorded() { env HEAP_LOGS="$logs" PYTHONMALLOC=malloc LD_PRELOAD="$preload" "$@" > /dev/null; }
preload="$work/record.so $*"
for run in 1 2 3; do
    recorded "$python" -S -E "$work/task.py"
    recorded git -C "$here" --no-pager log -p 26bd3c4
    recorded g++ -c -O0 "$work/task.cpp" -o /dev/null
done
for name in python git cc1plus; do python3 "$here/figures.py" "$logs/$name"*.log; done
