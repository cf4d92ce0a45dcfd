// Runs the module beside the page, so that a long run holds nothing up and can be cut off.
"use strict";

const MOST_BYTES = 2 ** 31;
const FIRST_ROOM = 2 ** 20;
const MOST_ROOM = 2 ** 29;
const WRITE_FAULT = 4;

let module;

self.onmessage = ({ data }) => {
  if (data.bytes !== undefined) {
    try {
      module = new WebAssembly.Module(data.bytes);
      self.postMessage({ ready: true });
    } catch (fault) {
      self.postMessage({ ready: false, fault: String(fault) });
    }
    return;
  }
  const began = performance.now();
  try {
    let room = FIRST_ROOM;
    const most = data.most ?? MOST_BYTES;
    let told = runWords(module, data.words, data.texts, room, most);
    // Standard output didn't take all: there was too little room.
    while (told.status === WRITE_FAULT && room < MOST_ROOM) {
      room *= 8;
      told = runWords(module, data.words, data.texts, room, most);
    }
    self.postMessage({ id: data.id, ...told, milliseconds: performance.now() - began });
  } catch (fault) {
    self.postMessage({ id: data.id, fault: String(fault), milliseconds: performance.now() - began });
  }
};
