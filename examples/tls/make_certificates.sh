#!/usr/bin/env bash
# Makes in a folder a certificate authority, and certificates from it for the server and two clients, `node` and
# `operator`, each with its key:
#
#     examples/tls/make_certificates.sh FOLDER [HOST]
#
# Clients look whether the server's certificate is for the host to which they connect: HOST, or localhost and 127.0.0.1.
# Keep authority.key away from all other hosts: who has it can make more clients.
set -euo pipefail
umask 077
mkdir -p "$1"
cd "$1"
hosts=${2:+DNS:$2}
hosts=${hosts:-DNS:localhost,IP:127.0.0.1}
key=(-newkey ec -pkeyopt ec_paramgen_curve:P-256 -nodes)

openssl req -x509 "${key[@]}" -days 3650 -subj "/CN=capsched authority" -keyout authority.key -out authority.pem

# a key and a certificate: its name, and what it is for
make() {
  openssl req "${key[@]}" -subj "/CN=$1" -keyout "$1.key" -out "$1.csr"
  openssl x509 -req -days 365 -in "$1.csr" -CA authority.pem -CAkey authority.key -CAcreateserial \
    -extfile <(printf '%s\n' "basicConstraints=CA:FALSE" "$2") -out "$1.pem"
  rm "$1.csr"
}

make server "subjectAltName=$hosts
extendedKeyUsage=serverAuth"
for client in node operator; do
  make "$client" "extendedKeyUsage=clientAuth"
done
