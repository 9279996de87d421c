// A file of the person's, read by node: only an ordinary one, and no more of it than could be meant. A device has no end, and a
// pipe would be waited for.

import { closeSync, openSync, readSync, statSync } from "node:fs";
import { READ_MOST } from "./dock.js";

/** Why a file cannot be read, by the system's word for it. */
const WHY = { ENOENT: "there is no such file", ENOTDIR: "there is no such file", EACCES: "it cannot be read" };

/** The bytes of a file, READ_MOST and one more at most. For what cannot be read it is an error that says why. */
export function read(name) {
    try {
        const found = statSync(name);
        if (!found.isFile()) throw new Error(found.isDirectory() ? "it is a folder" : "it is no ordinary file");
        return beginning(name);
    } catch (error) {
        throw new Error(WHY[error.code] ?? error.message);
    }
}

function beginning(name) {
    const room = new Uint8Array(READ_MOST + 1);
    const file = openSync(name, "r");
    try {
        let length = 0;
        for (let more = 1; more > 0 && length < room.length; length += more) more = readSync(file, room, length, room.length - length);
        return room.subarray(0, length);
    } finally {
        closeSync(file);
    }
}
