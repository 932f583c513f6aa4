// What runtime.js gives to every script.

// Decorators that log their name.
declare const a: any, b: any, c: any, d: any;

// A decorator factory: logs when it is called and when its decorator is applied.
declare function mark(label: any, ...more: any[]): any;

// Registers a knob: in the slot given, or in the next free one.
declare function knob(slot?: number): any;

// Registers a controller number.
declare function cc(controller: number): any;

// A class decorator that puts a subclass in the class's place.
declare function replace(label: string): any;

// A method or accessor decorator that puts another descriptor in the place of the one that it is given.
declare function wrap(label: string): any;

// Logs the value and answers it.
declare function see(value: any): any;

// Logs values.
declare function trace(...values: any[]): void;
