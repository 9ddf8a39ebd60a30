#!/bin/sh
# Removes what ./install.sh has put under the prefix in which this script is installed, and the folders that
# are empty then. Files that someone else has put there stay.
#
# usage: PREFIX/share/yokecairn/uninstall.sh
set -eu
case ${1-} in
    '') ;;
    -h | --help)
        echo "usage: PREFIX/share/yokecairn/uninstall.sh"
        echo "Removes what ./install.sh has put under PREFIX."
        exit 0
        ;;
    *)
        echo "usage: PREFIX/share/yokecairn/uninstall.sh" >&2
        exit 4
        ;;
esac
here=$(cd "$(dirname "$0")" && pwd)
if [ ! -f "$here/INSTALLED" ]; then
    echo "uninstall.sh: there is no list of files $here/INSTALLED" >&2
    exit 5
fi
cd "$here/../.."
prefix=$(pwd)
while IFS= read -r path; do
    case /$path/ in
        */../* | //*) continue ;;
    esac
    rm -f "$path"
    folder=$(dirname "$path")
    while [ "$folder" != . ] && rmdir "$folder" 2>/dev/null; do
        folder=$(dirname "$folder")
    done
done <"$here/INSTALLED"
echo "removed from $prefix"
