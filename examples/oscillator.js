class Oscillator {
    pitch = 440;
    shape = 0.5;
    gain = 1;
    tune(coarse, fine) {
        this.pitch = coarse + fine;
    }
}
__decorate([knob(1)], Oscillator.prototype, "pitch", void 0);
__decorate([knob(2), cc(70)], Oscillator.prototype, "shape", void 0);
__decorate([knob(3)], Oscillator.prototype, "gain", void 0);
__decorate([__param(0, cc(71)), __param(1, cc(72))], Oscillator.prototype, "tune", null);
