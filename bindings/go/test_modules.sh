#!/usr/bin/env bash
# bindings/go/test_modules.sh WAY FOLDER   makes a program in a new folder that has the module as a dependency, by one of the ways of
#                                          docs/guide/bindings.md: replaced, from the checkout; proxied, from a folder that file_proxy.sh
#                                          made, and vendored; forked, by git from a fork that fork.sh made. Nothing else is fetched
set -eu
here=$(cd "$(dirname "$0")" && pwd)
way=$1
mkdir "$2"
folder=$(cd "$2" && pwd)
module=$(sed -n 's/^module //p' "$here/go.mod")
export GOFLAGS=-modcacherw GOMODCACHE=$folder/modules GONOSUMDB='*' CGO_ENABLED=1

# begin_program MODULE: a program that uses the module by this path.
begin_program() {
    mkdir "$folder/program"
    cd "$folder/program"
    printf '%s\n' 'package main' '' 'import (' '	"fmt"' '' "	promql \"$1\"" ')' '' 'func main() {' '	fmt.Println(promql.Canonical("1+2"))' '}' >main.go
    go mod init program
}

prints_line() {
    [ "$("$@")" = '1 + 2 <nil>' ]
}

replaced() {
    export GOPROXY=off
    begin_program "$module"
    go mod edit -require "$module@v0.0.0" -replace "$module=$here"
    prints_line go run .
}

# What is vendored is enough, also where the proxy and the modules that were fetched are gone.
proxied() {
    "$here/file_proxy.sh" "$folder/proxy"
    export GOPROXY=file://$folder/proxy
    begin_program "$module"
    go get "$module@latest"
    prints_line go run -mod=mod .
    GOBIN=$folder/bin go install "$module/cmd/promql-proxy@latest"
    "$folder/bin/promql-proxy" -version
    go mod vendor
    rm -r "$folder/proxy" "$folder/modules"
    export GOPROXY=off
    prints_line go run .
}

forked() {
    local address=example.com/you/promql
    local fork=$address.git/bindings/go
    mkdir -p "$folder/fork/bindings"
    cp -r "$here" "$folder/fork/bindings/"
    cp -r "$here/../../dist" "$folder/fork/"
    cd "$folder/fork"
    bindings/go/fork.sh "$fork"
    git init --quiet
    git add --all
    git -c user.name=fork -c user.email=fork@example.com commit --quiet --message fork
    git tag bindings/go/v0.0.1
    export GOPROXY=direct GIT_CONFIG_COUNT=1 GIT_CONFIG_KEY_0=url.file://$folder/fork/.git.insteadOf GIT_CONFIG_VALUE_0=https://$address
    begin_program "$fork"
    go get "$fork@v0.0.1"
    prints_line go run .
}

case $way in
replaced | proxied | forked) "$way" ;;
*)
    sed -n '2,4s/^# //p' "$0" >&2
    exit 64
    ;;
esac
