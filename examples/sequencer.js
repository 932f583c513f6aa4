var alias_1;
let Sequencer = class Sequencer {
    static {
        alias_1 = this;
    }
    static all = [];
    static {
        alias_1.all.push(new alias_1());
    }
    static tempo = 120;
    steps = 16;
    copy() {
        return new alias_1();
    }
};
__decorate([knob(5)], Sequencer, "tempo", void 0);
__decorate([knob(6)], Sequencer.prototype, "steps", void 0);
Sequencer = alias_1 = __decorate([cc(30)], Sequencer);
export default Sequencer;
