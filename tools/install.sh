#!/bin/sh
# Installs soroban_cmd, soroban_why, `soroban`, `soroban-files`, a man page, and completions for bash and zsh.
#
# sh tools/install.sh [--prefix FOLDER] [--program FILE [--why FILE]]
#
# FOLDER is ~/.local, unless it is named. Without FILE the programs are proved and built first, if they are not yet. FILE is
# another program, such as one that examples/unproved.sh keeps: `soroban version` says that it was not proved here. With
# --program but without --why, soroban_why is not installed.
set -eu
top=$(cd "$(dirname "$0")/.." && pwd)
prefix=${HOME:-/usr}/.local
program=
why=

usage() {
    echo "usage: $0 [--prefix FOLDER] [--program FILE [--why FILE]]" >&2
    exit 2
}

while [ $# -gt 0 ]; do
    [ $# -ge 2 ] || usage
    case $1 in
        --prefix) prefix=$2 ;;
        --program) program=$2 ;;
        --why) why=$2 ;;
        *) usage ;;
    esac
    shift 2
done
[ -z "$why" ] || [ -n "$program" ] || usage
command -v python3 >/dev/null || { echo "$0 needs the command python3" >&2; exit 1; }

if [ -z "$program" ]; then
    command -v rt >/dev/null || { echo "$0 needs the command rt to prove the program; --program names a built one" >&2; exit 1; }
    python3 "$top/tools/prove.py" soroban_cmd
    python3 "$top/tools/prove.py" soroban_why
    program=$top/crates/soroban_cmd/out/soroban_cmd
    why=$top/crates/soroban_why/out/soroban_why
    proof="proved with $(rt version)"
else
    proof='not proved by this installation'
fi
for file in "$program" ${why:+"$why"}; do
    [ -f "$file" ] && [ -x "$file" ] || { echo "$file is no program" >&2; exit 1; }
done
python3 "$top/tools/command_table.py" check "$program"
[ -z "$why" ] || python3 "$top/tools/command_table.py" check-other why "$why"

commit=$(git -C "$top" rev-parse HEAD 2>/dev/null || echo unknown)
if [ "$commit" != unknown ] && [ -n "$(git -C "$top" status --porcelain 2>/dev/null)" ]; then
    commit="$commit with changes"
fi

mkdir -p "$prefix"
prefix=$(cd "$prefix" && pwd)
share=$prefix/share/soroban
man=$prefix/share/man/man1
bash=$prefix/share/bash-completion/completions
zsh=$prefix/share/zsh/site-functions
mkdir -p "$prefix/bin" "$share/python" "$man" "$bash" "$zsh"
install -m 755 "$program" "$prefix/bin/soroban_cmd"
rm -f "$prefix/bin/soroban_why"
[ -z "$why" ] || install -m 755 "$why" "$prefix/bin/soroban_why"
install -m 644 "$top/tools/soroban.py" "$top/tools/command_table.py" "$top/tools/commands.json" "$share"
sums=
for name in soroban_cmd ${why:+soroban_why}; do
    sums="$sums${sums:+, }\"$name\": \"$(sha256sum "$prefix/bin/$name" | cut -c 1-64)\""
done
cat >"$share/installed.json" <<END
{
  "proof": "$proof",
  "commit": "$commit",
  "sha256": {$sums}
}
END
cat >"$prefix/bin/soroban" <<END
#!/bin/sh
exec python3 "\$(dirname "\$(readlink -f "\$0")")/../share/soroban/soroban.py" "\$@"
END
rm -rf "$share/python/soroban_files"
cp -R "$top/python/soroban_files" "$share/python"
find "$share/python" -name __pycache__ -prune -exec rm -rf {} +
cat >"$prefix/bin/soroban-files" <<'END'
#!/usr/bin/env python3
import os
import sys

bin = os.path.dirname(os.path.realpath(__file__))
sys.dont_write_bytecode = True
sys.path.insert(0, os.path.join(bin, "..", "share", "soroban", "python"))
for program in ("soroban_cmd", "soroban_why"):
    os.environ.setdefault(program.upper(), os.path.join(bin, program))
from soroban_files.command import main

sys.exit(main())
END
chmod 755 "$prefix/bin/soroban" "$prefix/bin/soroban-files"
table() {
    python3 "$top/tools/command_table.py" "$1"
}
table man >"$man/soroban.1"
table bash >"$bash/soroban"
for name in soroban_cmd soroban_why; do
    echo '.so man1/soroban.1' >"$man/$name.1"
    cp "$bash/soroban" "$bash/$name"
done
table zsh >"$zsh/_soroban"
(unset SOROBAN_CMD SOROBAN_WHY; "$prefix/bin/soroban" version)
echo "installed in $prefix"
