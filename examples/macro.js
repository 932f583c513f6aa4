var key_1, key_2;
function macro(slot, controller) {
    return (target, key) => {
        knob(slot)(target, key);
        cc(controller)(target, key);
    };
}
let voice = "voice";
export class Macro {
    [key_1 = voice + 1]() {
        return 1;
    }
    [key_2 = voice + 2]() {
        return 2;
    }
}
__decorate([macro(7, 74)], Macro.prototype, key_1, null);
__decorate([macro(8, 75)], Macro.prototype, key_2, null);
