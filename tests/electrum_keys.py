#!/usr/bin/python3
"""Tries tools/electrum_keys.py on what Electrum's own commands say of made wallets; outside the gate.

    tests/electrum_keys.py

It wants Debian's python3-electrum. A wallet of each of six kinds is made from extended keys with their paths, and asked as Electrum's command
line asks. The keys file has to have the keys that the master keys derive.
"""
import asyncio
import json
import os
import random
import subprocess
import sys
import tempfile

from electrum.commands import Commands

from core_files import Saved, check, read_json
from harness.key_wallets import ACCOUNTS, account_of, described, electrum_wallet, event_loop
from harness.path_signer import root_of
from lib.programs import TOP

TOOL = TOP / "tools" / "electrum_keys.py"
ROOTS = [root_of(random.Random(number)) for number in range(3)]
UNKNOWN = "0014" + "77" * 20


def saved_answers(folder, wallet):
    """What Electrum's commands say of a wallet."""
    saved, commands = Saved(folder), Commands(config=wallet.config)

    def put(answer, *words):
        saved.put(asyncio.run(answer), *words)

    for key in ("wallet_type", "keystore", "x1/", "x2/", "x3/"):
        put(commands.get(key, wallet=wallet), "get", key)
    put(commands.listaddresses(receiving=True, wallet=wallet), "listaddresses", "--receiving")
    put(commands.listaddresses(change=True, wallet=wallet), "listaddresses", "--change")
    for address in wallet.get_addresses():
        put(commands.getpubkeys(address, wallet=wallet), "getpubkeys", address)


def tool(folder, scripts, change):
    """Runs the tool over saved answers and a wallet file of these scripts."""
    wallet, out = os.path.join(folder, "wallet.json"), os.path.join(folder, "keys.json")
    with open(wallet, "w", encoding="utf-8") as file:
        json.dump({"scripts": [{"script": script, "weight": 1} for script in scripts], "change": {"script": change, "weight": 1}}, file)
    run = subprocess.run([sys.executable, TOOL, "--saved", folder, "--wallet-file", wallet, "--out", out], capture_output=True, text=True)
    return run, read_json(out) if run.returncode == 0 else None


def try_kind(name):
    """The keys file of a wallet of one kind."""
    account = account_of(name, ROOTS)
    stores = [described(account, number) for number in range(len(account.roots))]
    receiving, change = [account.script(0, index).entry for index in range(3)], account.script(1, 1).entry
    with tempfile.TemporaryDirectory() as folder:
        wallet = electrum_wallet(stores, folder)
        for branch in (False, False, True):
            wallet.create_new_address(for_change=branch)
        saved_answers(folder, wallet)
        run, keys = tool(folder, [*(entry["script"] for entry in receiving), UNKNOWN], change["script"])
        due = {"scripts": [*receiving, change], "xpubs": account.xpubs()}
        right = check(run.returncode == 0 and keys == due, f"the keys of {name}")
        right &= check(f"no keys of {UNKNOWN}" in run.stderr, "a script of which Electrum lists no address is named")
    with tempfile.TemporaryDirectory() as folder:
        saved_answers(folder, electrum_wallet([{**stores[0], "root_fingerprint": None, "derivation": None}, *stores[1:]], folder))
        run, _ = tool(folder, [receiving[0]["script"]], change["script"])
        right &= check(run.returncode == 1 and "doesn't know the path" in run.stderr, "a wallet that doesn't know its path is refused")
    return right


def main():
    with event_loop():
        return 0 if all([try_kind(name) for name in sorted(ACCOUNTS)]) else 1


if __name__ == "__main__":
    sys.exit(main())
