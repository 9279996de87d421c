// The card's glass: 128 by 64 dots on a canvas.

const COLUMNS = 128;
const ROWS = 64;
/** A spot of the picture is two dots wide. */
const SPOTS = COLUMNS / 2;

export class Glass {
    constructor(canvas, redraw) {
        this.canvas = canvas;
        this.context = canvas.getContext("2d");
        this.dots = this.context.createImageData(COLUMNS, ROWS);
        this.colours = new Uint32Array(this.dots.data.buffer);
        new ResizeObserver(() => this.fit()).observe(canvas.parentElement);
        matchMedia("(prefers-color-scheme: dark)").addEventListener("change", () => {
            this.readColours();
            redraw();
        });
        this.readColours();
    }

    /** The colours of the page's style as the four bytes of a dot. */
    readColours() {
        const style = getComputedStyle(this.canvas);
        [this.dark, this.light] = ["--glass", "--lit"].map((name) => {
            const [red, green, blue] = style.getPropertyValue(name).trim().slice(1).match(/../g).map((digits) => parseInt(digits, 16));
            return (255 << 24) | (blue << 16) | (green << 8) | red;
        });
    }

    /** As many whole dots of the screen for each spot as there is room for: so all spots are sharp and alike. */
    fit() {
        const { clientWidth } = this.canvas.parentElement;
        const { paddingLeft, paddingRight } = getComputedStyle(this.canvas.parentElement);
        const room = (clientWidth - parseFloat(paddingLeft) - parseFloat(paddingRight)) * devicePixelRatio;
        const times = Math.max(1, Math.floor(room / SPOTS));
        this.canvas.style.width = `${(times * SPOTS) / devicePixelRatio}px`;
    }

    draw(panel) {
        for (let dot = 0; dot < COLUMNS * ROWS; dot++)
            this.colours[dot] = (panel[dot >> 3] >> (7 - (dot & 7))) & 1 ? this.light : this.dark;
        this.context.putImageData(this.dots, 0, 0);
    }
}
