let Filter = class Filter {
    #cutoff;
    constructor(cutoff, resonance = 0.3) {
        this.#cutoff = cutoff * resonance;
    }
    get cutoff() {
        return this.#cutoff;
    }
    set cutoff(value) {
        this.#cutoff = value;
    }
};
__decorate([knob(4)], Filter.prototype, "cutoff", null);
Filter = __decorate([cc(20), __param(0, cc(21)), __param(1, cc(22))], Filter);
export { Filter };
