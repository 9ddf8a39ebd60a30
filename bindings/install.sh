#!/bin/sh
# Puts the files of an unpacked release, beside which it is, under a prefix: bin, lib, include and share.
#
# usage: ./install.sh PREFIX [--as NAME]
#
# PREFIX/share/yokecairn/uninstall.sh removes them again, by a list that this script leaves beside it.
# With --as the program is called NAME, and so are its manual page and completions: another program may be
# called tsp, as that of task-spooler. The scripts of share/yokecairn/examples find it under that name.
set -eu
usage() {
    echo "usage: ./install.sh PREFIX [--as NAME]"
}

# Says how it is called, and ends.
refuse() {
    usage >&2
    exit 4
}

prefix=
name=tsp
while [ "$#" -gt 0 ]; do
    case $1 in
        --as)
            [ "$#" -ge 2 ] || refuse
            name=$2
            shift
            ;;
        -h | --help)
            usage
            echo "Installs the program, the libraries, the pages and the examples in the folder PREFIX."
            echo "With --as, the program is called NAME instead of tsp. To remove everything, run"
            echo "PREFIX/share/yokecairn/uninstall.sh."
            exit 0
            ;;
        -* | '') refuse ;;
        *)
            [ -z "$prefix" ] || refuse
            prefix=$1
            ;;
    esac
    shift
done
[ -n "$prefix" ] || refuse
case $name in
    '' | [!A-Za-z0-9]* | *[!A-Za-z0-9._-]*)
        echo "install.sh: a name consists of letters, digits and . _ -, unlike this one: $name" >&2
        exit 4
        ;;
esac
here=$(cd "$(dirname "$0")" && pwd)
mkdir -p "$prefix"
prefix=$(cd "$prefix" && pwd)

# Writes a text in which the program is called tsp with its name.
named() {
    mkdir -p "$(dirname "$prefix/$2")"
    while IFS= read -r line; do
        case $line in
            'complete -c tsp '*) line="complete -c $name ${line#complete -c tsp }" ;;
            'complete '*' tsp') line="${line%tsp}$name" ;;
            '#compdef tsp') line="#compdef $name" ;;
            '.B tsp' | '.B tsp '* | '.BR tsp '* | '$ tsp '* | '    tsp '*) line="${line%%tsp*}$name${line#*tsp}" ;;
            'tsp \- '*) line="$name${line#tsp}" ;;
        esac
        printf '%s\n' "$line"
    done <"$here/$1" >"$prefix/$2"
}

# Prints the path of each file and link in a folder of the release.
list() {
    for path in "$here/$1"/* "$here/$1"/.[!.]*; do
        if [ -d "$path" ] && [ ! -L "$path" ]; then
            (list "$1/${path##*/}")
        elif [ -e "$path" ] || [ -L "$path" ]; then
            echo "$1/${path##*/}"
        fi
    done
}

mkdir -p "$prefix/bin"
cp "$here/bin/tsp" "$prefix/bin/$name"
# The producer's programs, where the release has them, with their pages.
producer=
for program in tsp-certify tsp-potentials; do
    [ -f "$here/bin/$program" ] || continue
    mkdir -p "$prefix/share/man/man1"
    cp "$here/bin/$program" "$prefix/bin/$program"
    named "share/man/man1/$program.1" "share/man/man1/$program.1"
    producer="$producer bin/$program share/man/man1/$program.1"
done
for part in lib include share/doc share/yokecairn; do
    mkdir -p "$prefix/$part"
    cp -R "$here/$part/." "$prefix/$part"
done
cp "$here/BUILT-FROM" "$here/CONTACT" "$prefix/share/doc/yokecairn"
named share/man/man1/tsp.1 "share/man/man1/$name.1"
completions="share/bash-completion/completions/$name share/zsh/site-functions/_$name share/fish/vendor_completions.d/$name.fish"
named share/bash-completion/completions/tsp "share/bash-completion/completions/$name"
named share/zsh/site-functions/_tsp "share/zsh/site-functions/_$name"
named share/fish/vendor_completions.d/tsp.fish "share/fish/vendor_completions.d/$name.fish"
echo "../../bin/$name" >"$prefix/share/yokecairn/PROGRAM"
# The second line of the browser page has the name that its commands begin with.
page=share/yokecairn/tsp.html
if [ -f "$here/$page" ] && [ "$name" != tsp ]; then
    {
        head -n 1 "$here/$page"
        echo "<html lang=\"en\" data-program=\"$name\">"
        tail -n +3 "$here/$page"
    } >"$prefix/$page"
fi

# A path as pkg-config reads it, with a backslash before each blank, quote and backslash. Only coreutils are needed.
escaped() {
    rest=$1
    while [ -n "$rest" ]; do
        next=${rest#?}
        case $rest in
            [\\\"\ ]*) printf '\\%s' "${rest%"$next"}" ;;
            *) printf '%s' "${rest%"$next"}" ;;
        esac
        rest=$next
    done
}

mkdir -p "$prefix/lib/pkgconfig"
version=$(cat "$here/VERSION")
while IFS= read -r line; do
    case $line in
        prefix=*) printf 'prefix=%s\n' "$(escaped "$prefix")" ;;
        Version:*) echo "Version: $version" ;;
        *) printf '%s\n' "$line" ;;
    esac
done <"$here/share/yokecairn/tsp.pc.in" >"$prefix/lib/pkgconfig/tsp.pc"
# What an earlier call has put there is removed with the rest.
installed=share/yokecairn/INSTALLED
{
    [ ! -f "$prefix/$installed" ] || cat "$prefix/$installed"
    for part in lib include share/doc share/yokecairn; do
        list "$part"
    done
    for file in bin/$name share/man/man1/$name.1 $producer $completions lib/pkgconfig/tsp.pc share/doc/yokecairn/BUILT-FROM share/doc/yokecairn/CONTACT share/yokecairn/PROGRAM $installed; do
        echo "$file"
    done
} | LC_ALL=C sort -u >"$prefix/$installed.new"
mv "$prefix/$installed.new" "$prefix/$installed"
echo "installed in $prefix: bin/$name, lib/libtsp.so, lib/libtsp.a, include/tsp.h, share/man/man1/$name.1"
[ -z "$producer" ] || echo "programs that make certificates:$producer"
echo "completions: $completions"
