# shellcheck shell=bash disable=SC2154,SC2016
# tool/build_tool: where the dependencies come from, what cargo is given, and installing the packages, which no test really does. Sourced by tests/launcher_tool.sh, whose stand it uses.

# a stand-in for the packages' folder, and for apt-get, dpkg-query, id and sudo; each writes its words to the calls
registry=$bench/registry
sed "s|^folder=.*|folder=$registry|" "$here/tool/build_tool" >"$bench/tool/build_tool"
packaged="--offline --config source.crates-io.replace-with=\"packages\" --config source.packages.directory=\"$registry\""
# cargo_on SCRIPT: what it does for generate-lockfile
cargo_on() { fake cargo <<<"echo \"cargo \$*\" >>'$calls'; [ \"\$1\" = generate-lockfile ] || exit 0; $1"; }
# tool_built NAME STATUS LAST-ERROR CALLS WORD..: with these words; the calls are those that were made
tool_built() {
    : >"$calls"
    says "build_tool: $1" "$2" '' "$3" env -C / PATH="$bench/bin:$bench/tools" "$bench/tool/build_tool" "${@:5}"
    same "build_tool: $1, calls" 0 "$4" cat "$calls"
}
from_registry="build_tool: Debian's packages are not here: the dependencies are to come from the registry"
locking="cargo generate-lockfile $packaged"
mkdir "$registry"
cargo_on 'exit 0'
tool_built 'from the packages' 0 '' "$locking${feed}cargo build $packaged --release"
tool_built 'another command' 0 '' "$locking${feed}cargo clippy $packaged --release --all-targets -- -D warnings" clippy --release --all-targets -- -D warnings

# the dependencies alone: without the archive, which is not looked for, and whatever cargo leaves with
mv "$library" "$library.away"
dependencies="$locking${feed}cargo build $packaged --release --keep-going${feed}cargo clippy $packaged --release --all-targets --keep-going"
tool_built 'dependencies' 0 '' "$dependencies" dependencies
cargo_on '' && sed -i 's/ exit 0;/ exit 101;/' "$bench/bin/cargo"
tool_built 'dependencies, and what needs the archive fails' 0 '' "$dependencies" dependencies
cargo_on 'exit 0'
mv "$library.away" "$library"

# no apt-get, and what is there is not enough: from the registry, whose lock stays; one of the packages does not
cargo_on 'exit 1'
echo 'checksum = "00"' >"$bench/tool/Cargo.lock"
tool_built 'from the registry' 0 "$from_registry" "$locking${feed}cargo build --release"
same 'build_tool: the lock of a registry stays' 0 'checksum = "00"' cat "$bench/tool/Cargo.lock"
echo 'checksum = "Could not get crate checksum"' >"$bench/tool/Cargo.lock"
tool_built 'from the registry, after packages' 0 "$from_registry" "$locking${feed}cargo test --release" test --release
same 'build_tool: the lock of the packages is removed' 1 '' test -e "$bench/tool/Cargo.lock"
rmdir "$registry"
tool_built 'no folder at all' 0 "$from_registry" 'cargo build --release'

# installing: as root or by sudo, after an update where it fails at first
fake apt-get <<<"echo \"apt-get \$2 \$DEBIAN_FRONTEND\" >>'$calls'; [ \"\$2\" = update ] || mkdir '$registry'"
fake dpkg-query <<<'exit 1'
rm "$bench/tools/id"
fake id <<<'echo 0'
cargo_on 'exit 0'
installing="build_tool: Debian's packages of the tool's dependencies are now installed"
tool_built 'packages are installed' 0 "$installing" "apt-get install noninteractive$feed$locking${feed}cargo build $packaged --release"
tool_built 'packages are there' 0 '' "$locking${feed}cargo build $packaged --release"
tool_built 'install alone' 1 "build_tool: Debian's packages of the tool's dependencies could not be installed" \
    $'apt-get install noninteractive\napt-get update noninteractive\napt-get install noninteractive' install
fake dpkg-query <<<'echo installed'
tool_built 'install alone, and all are installed' 0 '' '' install
fake dpkg-query <<<'echo installed; echo config-files'
rmdir "$registry"
tool_built 'install alone, and one was removed' 0 "$installing" 'apt-get install noninteractive' install
fake dpkg-query <<<'exit 1'
fake id <<<'echo 1000'
fake sudo <<<'exit 1'
rmdir "$registry"
tool_built 'no root' 0 "$from_registry" 'cargo build --release'
fake sudo <<<"shift; [ \"\$1\" != true ] || exit 0; echo sudo >>'$calls'; exec \"\$@\""
tool_built 'by sudo' 0 "$installing" "sudo${feed}apt-get install noninteractive$feed$locking${feed}cargo build $packaged --release"

# what is missing is said
rm "$bench/bin/cargo"
tool_built 'no cargo' 1 'build_tool: cargo is not here' ''
rm "$library"
tool_built 'no archive' 1 "build_tool: the archive is missing, $library: ./make_proved library makes it" ''
