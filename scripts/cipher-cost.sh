#!/usr/bin/env bash
# Times the ciphers: those of an earlier commit, where one is named, and those of this checkout, side by side.
#   scripts/cipher-cost.sh [COMMIT]
# It proves and builds a small program in a temporary folder, runs it several times, and takes the least. OpenSSL, with its
# AES instructions switched off, is the yardstick where it is there. It is no part of the gate, and changes nothing here.
set -euo pipefail
top=$(cd "$(dirname "$0")/.." && pwd)
work=$(mktemp -d)
trap 'rm -rf "$work"' EXIT
crates=(seal_model aes_block tree_model aes_gcm)

# The program, which prints a name and the least nanoseconds of 300 rounds a line.
program() {
    cat <<'END'
// Times of the ciphers.
#![tactic(auto)]

use aes_block::Aes256;
use aes_gcm::{ghash, seal};
use std::io;
use std::time::Instant;
use tree_model::{Bytes, NoMemory};

fn first_of(sealed: Result<Bytes, NoMemory>) -> u8 {
    match sealed {
        Ok(sealed) => match sealed.as_slice().first() {
            Some(byte) => *byte,
            None => 0,
        },
        Err(_) => 0,
    }
}

fn main(rt: HostRuntime) -> io::Result<()> {
    let key = [7; 32];
    let nonce = [1; 12];
    let text = [9u8; 1024];
    let cipher = Aes256::new(&key);
    let h = cipher.encrypt_block([0; 16]);
    let mut best = [u128::MAX; 5];
    let mut seen = 0u8;
    for _round in 0..300u32 {
        let start = Instant::now(&rt)?;
        let mut block = [seen; 16];
        for _i in 0..64u32 {
            block = cipher.encrypt_block(block);
        }
        seen ^= block[0];
        best[0] = best[0].min(start.elapsed(&rt)?.as_nanos());

        let mut blocks = [[seen; 16]; 16];
        let start = Instant::now(&rt)?;
        for _i in 0..4u32 {
            cipher.encrypt16(&mut blocks);
        }
        seen ^= blocks[3][0];
        best[1] = best[1].min(start.elapsed(&rt)?.as_nanos());

        let start = Instant::now(&rt)?;
        seen ^= ghash(h, &text)[0];
        best[2] = best[2].min(start.elapsed(&rt)?.as_nanos());

        let start = Instant::now(&rt)?;
        let sealed = seal(rt.alloc(), &key, &nonce, &[], &text);
        best[3] = best[3].min(start.elapsed(&rt)?.as_nanos());
        seen ^= first_of(sealed);

        let start = Instant::now(&rt)?;
        let sealed = seal(rt.alloc(), &key, &nonce, &[], &text[..64]);
        best[4] = best[4].min(start.elapsed(&rt)?.as_nanos());
        seen ^= first_of(sealed);
    }
    println!(rt; "encrypt_block {}", best[0])?;
    println!(rt; "encrypt16 {}", best[1])?;
    println!(rt; "ghash {}", best[2])?;
    println!(rt; "seal {}", best[3])?;
    println!(rt; "seal_of_64 {}", best[4])?;
    println!(rt; "seen {}", seen)?;
    Ok(())
}
END
}

# A repository of the ciphers' crates and the program, in $work/$1; the crates come from the archive on standard input.
build() {
    local there="$work/$1"
    mkdir -p "$there/crates/cipher_cost/src"
    tar x -C "$there"
    printf '%s\n' 'seal_model:' 'aes_block: seal_model hex' 'tree_model:' 'aes_gcm: seal_model aes_block tree_model hex' \
        'cipher_cost: seal_model aes_block tree_model aes_gcm' >"$there/crates.txt"
    cp "$top/HANDLES" "$there/"
    if grep -q 'fn encrypt16' "$there/crates/aes_block/src/key.rt"; then
        program
    else
        program | sed '/encrypt16/d'
    fi >"$there/crates/cipher_cost/src/main.rt"
    (cd "$there/crates/cipher_cost" && rt run) >"$work/$1.log" 2>&1 || {
        tail -20 "$work/$1.log" >&2
        exit 1
    }
}

versions=(now)
if [ $# -gt 0 ]; then
    versions=(before now)
    (cd "$top" && git archive "$1" "${crates[@]/#/crates/}") | build before
fi
(cd "$top" && tar c --exclude out "${crates[@]/#/crates/}") | build now

for _ in 1 2 3 4 5; do
    for version in "${versions[@]}"; do
        "$work/$version/crates/cipher_cost/out/cipher_cost" | sed "s/^/$version /" >>"$work/times"
    done
done
echo 'nanoseconds, the least of 1,500: of 1 KiB, but for seal_of_64'
for name in encrypt_block encrypt16 ghash seal seal_of_64; do
    for version in "${versions[@]}"; do
        awk -v v="$version" -v n="$name" '$1 == v && $2 == n && (best == "" || $3 < best) { best = $3 }
            END { if (best != "") printf "%-14s %-7s %s\n", n, v, best }' "$work/times"
    done
done

if command -v openssl >/dev/null; then
    for bytes in 1024 64; do
        for _ in 1 2 3; do
            OPENSSL_ia32cap='~0x200000200000000' openssl speed -seconds 1 -bytes "$bytes" -evp aes-256-gcm 2>/dev/null | tail -1
        done | awk -v b="$bytes" '{ sub(/k$/, "", $NF); if ($NF > most) most = $NF }
            END { printf "OpenSSL, AES-256-GCM of %s bytes: %d\n", b, b * 1e6 / most }'
    done
fi
