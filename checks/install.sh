#!/bin/bash
# `./install` puts what it says, takes away exactly that, and spoils nothing; and the program alone runs in an
# empty root with nothing but what it is linked to.
top=$(pwd)
held=0
rows=0

# hold NAME COMMAND..: the command succeeds.
hold() {
    local name=$1
    shift
    rows=$((rows + 1))
    if "$@" > "$WORK/said" 2>&1; then
        held=$((held + 1))
    else
        echo "FAILED: $name: $(head -c 2000 "$WORK/said")"
    fi
}

# fails STATUS COMMAND..: it ends so.
fails() {
    local want=$1
    shift
    "$@" > "$WORK/refused" 2>&1
    [ $? = "$want" ]
}

# tree FOLDER: all that is in it, with kinds, modes and sums.
tree() {
    (cd "$1" && find . -printf '%p %y %m\n' | LC_ALL=C sort \
        && find . -type f -exec sha256sum {} + | LC_ALL=C sort -k 2)
}

same_tree() {
    diff <(tree "$1") "$2"
}

# A copy of what is needed. Its launcher takes the program to be up to date.
source="$WORK/with blank"
mkdir -p "$source/docs" "$source/out"
cp -R "$top/install" "$top/completions" "$source/"
cp "$top/docs/desq.1" "$source/docs/"
cp "$DESQ" "$source/out/desq"
printf '#!/bin/sh\nexec "%s/out/desq" "$@"\n' "$source" > "$source/desq"
chmod +x "$source/desq"

wanted="bin/desq 755
share/bash-completion/completions/desq 644
share/desq/installed 644
share/fish/vendor_completions.d/desq.fish 644
share/man/man1/desq.1 644
share/zsh/site-functions/_desq 644"

umask 022
one="$WORK/one/pre fix"
puts() {
    "$source/install" "$one" > "$WORK/put"
}
hold "it puts its files" puts
has_wanted() {
    diff <(cd "$one" && find . -type f -printf '%P %m\n' | LC_ALL=C sort) <(echo "$wanted")
}
hold "these files, with these modes" has_wanted
says_files() {
    diff <(grep "^$one/[^ ]*$" "$WORK/put" | LC_ALL=C sort) \
        <(echo "$wanted" | sed "s|^|$one/|; s/ [0-9]*\$//" | LC_ALL=C sort)
}
hold "it says each file" says_files
hold "the program" cmp "$DESQ" "$one/bin/desq"
hold "the page" cmp "$top/docs/desq.1" "$one/share/man/man1/desq.1"
hold "bash's" cmp "$top/completions/desq.bash" "$one/share/bash-completion/completions/desq"
hold "zsh's" cmp "$top/completions/_desq" "$one/share/zsh/site-functions/_desq"
hold "fish's" cmp "$top/completions/desq.fish" "$one/share/fish/vendor_completions.d/desq.fish"
runs_elsewhere() {
    cd / && printf 'a b\na b\na c\n' > "$WORK/some" \
        && env -i PATH="$one/bin:$(getconf PATH)" desq --support 2 '.*(a)(b).*' "$WORK/some" > "$WORK/out" \
        && [ "$(cat "$WORK/out")" = "2	a b" ]
}
hold "the program runs from the path" runs_elsewhere
finds_page() {
    [ "$(PATH="$one/bin:$PATH" MANPATH='' man -w desq)" = "$one/share/man/man1/desq.1" ]
}
hold "man finds the page by the path" finds_page
hold "it puts them again" "$source/install" "$one"
hold "and these are the files" has_wanted
hold "it takes them away" "$source/install" --remove "$one"
is_gone() {
    [ ! -e "$WORK/one" ]
}
hold "and each folder that it made" is_gone
hold "a second time there is nothing" fails 1 "$source/install" --remove "$one"

# Beside what others have.
two="$WORK/two"
mkdir -p "$two/share/man/man1" "$two/bin" "$two/share/fish"
echo theirs > "$two/share/man/man1/other.1"
tree "$two" > "$WORK/before"
hold "it puts them beside others" "$source/install" "$two"
hold "again, as an update" "$source/install" "$two"
hold "it takes them away from beside others" "$source/install" --remove "$two"
hold "what others have is as it was, empty folders too" same_tree "$two" "$WORK/before"
hold "it puts them once more" "$source/install" "$two"
echo theirs > "$two/share/zsh/site-functions/_other"
hold "with a file of another in a folder that it made" "$source/install" --remove "$two"
keeps_folder() {
    [ -e "$two/share/zsh/site-functions/_other" ] && [ ! -e "$two/share/zsh/site-functions/_desq" ] \
        && [ ! -e "$two/share/desq" ]
}
hold "that folder stays" keeps_folder
for place in bin/desq share/man/man1/desq.1 share/fish/vendor_completions.d/desq.fish; do
    three="$WORK/three"
    rm -rf "$three"
    mkdir -p "$three/$(dirname "$place")"
    echo theirs > "$three/$place"
    tree "$three" > "$WORK/before"
    hold "it refuses where $place is another's" fails 1 "$source/install" "$three"
    hold "and changes nothing: $place" same_tree "$three" "$WORK/before"
done
touch "$WORK/file"
hold "a folder that cannot be made" fails 1 "$source/install" "$WORK/file/below"
hold "too many words" fails 2 "$source/install" a b
hold "an option that there is not" fails 2 "$source/install" --help
hold "an empty folder name" fails 2 "$source/install" ''
home() {
    mkdir "$WORK/home" && HOME="$WORK/home" "$source/install" && cmp "$DESQ" "$WORK/home/.local/bin/desq" \
        && HOME="$WORK/home" "$source/install" --remove && [ -z "$(ls -A "$WORK/home")" ]
}
hold "where no folder is named it is ~/.local" home
relative() {
    mkdir "$WORK/relative" && cd "$WORK/relative" && "$source/install" here && cmp "$DESQ" here/bin/desq \
        && "$source/install" --remove here && [ -z "$(ls -A)" ]
}
hold "a folder named from where one stands" relative

# Where the launcher leaves the program is where it is taken from.
same_place() {
    grep -q '"$here/out/desq"' "$top/desq" && grep -q '^out/desq bin/desq 755$' "$top/install"
}
hold "the launcher leaves the program where it is taken from" same_place

# Where the program is missing, the launcher is run, which builds it.
missing() {
    rm "$source/out/desq"
    printf '#!/bin/sh\ncp "%s" "%s/out/desq"\n' "$DESQ" "$source" > "$source/desq"
    "$source/install" "$WORK/four" && cmp "$DESQ" "$WORK/four/bin/desq"
}
hold "a program that is missing is built first" missing
printf '#!/bin/sh\nexit 1\n' > "$source/desq"
hold "a program that cannot be built" fails 1 "$source/install" "$WORK/five"
puts_nothing() {
    [ ! -e "$WORK/five" ]
}
hold "then nothing is put" puts_nothing

# What the program is linked to.
is_for_linux() {
    readelf -h "$DESQ" | grep -q 'Machine:.*X86-64'
}
hold "it is for x86-64" is_for_linux
needs_c_library() {
    diff <(readelf -d "$DESQ" | sed -n 's/.*(NEEDED).*\[\(.*\)\]/\1/p') <(echo libc.so.6)
}
hold "it needs the C library and nothing else" needs_c_library
version() {
    readelf -V "$DESQ" | grep -o 'Name: GLIBC_[0-9.]*' | sed 's/.*_//' | sort -V | tail -n 1
}
is_version() {
    [ "$(version)" = 2.34 ] && grep -q 'glibc 2.34' "$top/docs/desq.1"
}
hold "of glibc 2.34 or later, as the page says" is_version

# An empty root, with the program, the C library and its loader.
root="$WORK/root"
mkdir -p "$root/bin"
cp "$DESQ" "$root/bin/desq"
ldd "$DESQ" | grep -o '/[^ ]*' | while read -r library; do
    mkdir -p "$root$(dirname "$library")"
    cp -L "$library" "$root$library"
done
has_two() {
    [ "$(find "$root" -type f | sed 's|.*/||' | LC_ALL=C sort | tr '\n' ' ')" \
        = "desq ld-linux-x86-64.so.2 libc.so.6 " ]
}
hold "the root has three files" has_two
printf 'a b\na b\na c\n' > "$root/lines"
printf 'b B\nc B\n' > "$root/above"
inside() {
    if [ "$(id -u)" = 0 ]; then
        env -i "$(command -v chroot)" "$root" /bin/desq "$@"
    else
        env -i "$(command -v unshare)" --user --map-root-user "$(command -v chroot)" "$root" /bin/desq "$@"
    fi
}
# runs STATUS OUT ERR WORD..: in the root, with these bytes as of printf.
runs() {
    local status=0
    printf "$2" > "$WORK/want_out"
    printf "$3" > "$WORK/want_err"
    inside "${@:4}" > "$WORK/out" 2> "$WORK/err" < "$root/lines" || status=$?
    [ $status = "$1" ] && diff "$WORK/want_out" "$WORK/out" && diff "$WORK/want_err" "$WORK/err"
}
for engine in dfs pivot count cand; do
    hold "in an empty root, by $engine" runs 0 '2\ta b\n' '' --support 2 --engine $engine --workers 8 \
        '.*(a)(b).*' lines
done
hold "in an empty root, a hierarchy" runs 0 '3\ta B\n' '' --support 3 --hierarchy above '.*(a)(B^=).*' -
hold "in an empty root, no command" runs 2 '' 'desq: usage: desq --support N [options] EXPR [FILE]\n'
hold "in an empty root, a malformed expression" runs 3 '' 'desq: expression: column 4: unexpected\n' \
    --support 1 '(a))' lines
hold "in an empty root, a file that is missing" runs 5 '' 'desq: sequences: read fault\n' \
    --support 1 '(a)' absent

echo "$held of $rows rows hold"
[ "$held" = "$rows" ] && [ "$rows" -gt 0 ]
