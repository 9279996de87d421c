// The programs of our own that a dock has in its list, the one that it starts with first.

export const PROGRAMS = [
    ["squash.ch8", "a game (keys 4, 6)"],
    ["mover.ch8", "a pattern that moves"],
    ["digits.ch8", "counts in decimal digits"],
    ["keys.ch8", "waits for keys and shows them"],
    ["again.ch8", "draws twice to erase"],
    ["deep.ch8", "calls twelve deep"],
    ["night.ch8", "a house at night"],
    ["triangles.ch8", "patterns of the second edition"],
];
