#!/usr/bin/env bash
# A CI job as a user writes it: rclone, restic and lftp on one server, with faults by curl.
set -euo pipefail

python3 -m lucernetick --port 0 --user ci:secret --control 0 --ready-file ready \
  --write-ssh-config ssh --log calls.log --save saved >printed &
server=$!
trap 'kill $server 2>/dev/null || true' EXIT
until [ -e ready ]; do sleep 0.1; done
port=$(jq -r .port ready) control=$(jq -r .control ready)
remote=":sftp,host=127.0.0.1,port=$port,user=ci,pass=$(rclone obscure secret),shell_type=none:"
export RESTIC_PASSWORD=backup RESTIC_REPOSITORY=sftp:lucernetick:/backup
restic() { command restic -q -o "sftp.command=ssh -F ssh/ssh_config lucernetick -s sftp" "$@"; }
ask() { curl -fsS -X "$1" "$control$2" -d "${3:-}"; }
fails() { if "$@" 2>>failures; then echo "$* succeeded"; exit 1; fi; }
once() { timeout 60 rclone "$@" --retries 1 --low-level-retries 1; }

mkdir -p site/{pages,images}
for number in {1..20}; do seq "$number" >"site/pages/$number"; done
head -c 300000 /dev/urandom >site/images/logo

echo "rclone"
rclone sync site "$remote/site"
echo new >site/pages/1 && rm site/pages/2
rclone sync site "$remote/site" && rclone check --download site "$remote/site"

echo "restic"
restic init && restic backup site && restic check --read-data
restic restore latest --target restored && diff -r site restored/site

echo "lftp"
lftp -c 'set sftp:connect-program "ssh -a -x -F ssh/ssh_config"; open -u ci, sftp://lucernetick
  mirror -R site /lftp'
[ "$(ask GET /files/lftp/pages/1)" = new ]

echo "writes to these paths fail"
rule=$(ask POST /rules '{"kind": "WRITE", "path": "/one/pages/**", "times": null}' | jq .rule)
fails once copy site "$remote/one"
ask GET /files/one/images/logo | cmp - site/images/logo
ask DELETE "/rules/$rule"
once copy site "$remote/one"

echo "full, then freed"
rule=$(ask POST /rules '{"kind": "WRITE", "after_bytes": 100000, "times": null}' | jq .rule)
fails once copy site "$remote/two"
ask DELETE "/rules/$rule"
once copy site "$remote/two" && rclone check --download site "$remote/two"

echo "each connection is cut"
ask PUT /faults '{"cut_after": 100000}'
fails once copy site "$remote/three"
fails timeout 60 sftp -q -F ssh/ssh_config -b - lucernetick <<<'put site/images/logo /logo'

echo "latency"
ask PUT /faults '{"delay": 0.05}'
once copy site "$remote/four" && rclone check --download site "$remote/four"

echo "what was called"
ask GET /calls | jq -e '.dropped == 0 and (.calls | map(select(.kind == "RMDIR")) == [])'
kill $server && wait $server
diff -r site saved/four
tail -n 1 printed
