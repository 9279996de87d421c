// The timeline: the kept actions before the handle, those ahead behind it. To drag it makes backs and forwards and nothing else.

import { find } from "./elements.js";

export class Timeline {
    constructor(slider, onSeek) {
        this.slider = slider;
        slider.addEventListener("input", () => onSeek(Number(slider.value)));
    }

    draw({ kept, ahead, places }) {
        const all = kept + ahead;
        this.slider.max = all;
        this.slider.value = kept;
        this.slider.disabled = all === 0;
        this.slider.style.setProperty("--at", all === 0 ? 0 : kept / all);
        this.slider.setAttribute("aria-valuetext", `${kept} kept, ${ahead} ahead`);
        find("kept").textContent = kept;
        find("ahead").textContent = ahead;
        find("places").textContent = `room for ${places}`;
    }
}
