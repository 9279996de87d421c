// The tone. A browser lets a page sound only after a press, so nothing is made before it is switched on.

export class Tone {
    constructor(box) {
        this.box = box;
        box.addEventListener("change", () => box.checked && this.prepare());
    }

    prepare() {
        if (this.context) return void this.context.resume();
        this.context = new AudioContext();
        this.volume = this.context.createGain();
        this.volume.gain.value = 0;
        const wave = this.context.createOscillator();
        wave.type = "square";
        wave.frequency.value = 440;
        wave.connect(this.volume).connect(this.context.destination);
        wave.start();
    }

    /** A volume that moves within some milliseconds does not click. */
    sound(on) {
        this.volume?.gain.setTargetAtTime(on && this.box.checked ? 0.05 : 0, this.context.currentTime, 0.004);
    }
}
