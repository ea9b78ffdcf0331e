#!/bin/sh
# Installs the programs, the library, the manual, completions and examples. PROVED beside this file says what they were built from.
#
# Usage: ./install.sh --prefix FOLDER     into FOLDER/bin, lib, include and share; FOLDER/share/ucl-board/installed lists all files
#        tr '\n' '\0' <FOLDER/share/ucl-board/installed | xargs -0 rm     takes them away again
set -eu
case $#,${1-} in
2,--prefix) ;;
*) sed -n '2,/^set /{/^set /d;s/^# \{0,1\}//p;}' "$0" >&2 && exit 2 ;;
esac
cd "$(dirname "$0")"
mkdir -p "$2"
prefix=$(cd "$2" && pwd)
list=$prefix/share/ucl-board/installed
mkdir -p "${list%/*}"
find bin lib include share ! -type d | sort | while read -r file; do
    mkdir -p "$prefix/${file%/*}"
    cp -P "$file" "$prefix/$file"
    echo "$prefix/$file"
done >"$list"
echo "$list" >>"$list"
for file in share/bash-completion/completions/ucl_live share/zsh/site-functions/_ucl; do
    sed "s|/usr/share/ucl-board|$prefix/share/ucl-board|" "$file" >"$prefix/$file"
done
