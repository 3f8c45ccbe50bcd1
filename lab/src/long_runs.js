// Runs that take long are made in a worker, so that the page goes on. The worker's program is the part of this page's script up
// to the mark at the end of this file.
import { Program } from '../kbd48.mjs';
import { captureOf } from './captures/capture.js';
import { readTrace } from './vcd.js';

/** In a worker: answers each call { number, words, files } with { number, exit, text }, and the edges and bytes of a trace; each call
    { number, capture } with { number, captured }; or any with { number, failed }, which says why there is no answer. The first
    message is the module. */
export function serveRuns(scope) {
  let module = null, program = null;
  const answer = ({ number, words, files }, { exit, text }) => {
    const traced = exit === 0 && text.startsWith('$timescale') ? readTrace(text) : null;
    if (!traced) {
      scope.postMessage({ number, exit, text });
      return;
    }
    // As two arrays, which cost the page nothing to take.
    const cycles = Float64Array.from(traced.edges, it => it.cycle), levels = Uint8Array.from(traced.edges, it => it.levels);
    scope.postMessage({ number, exit, text, traced: { cycles, levels, bytes: traced.bytes, cycle: traced.cycle } }, [cycles.buffer, levels.buffer]);
  };
  const read = async ({ number, capture: { file, ...asked } }) => {
    const captured = captureOf(program, { ...asked, bytes: new Uint8Array(await file.arrayBuffer()) });
    scope.postMessage({ number, captured }, captured.refused ? [] : [captured.cycles.buffer, captured.levels.buffer]);
  };
  scope.onmessage = async ({ data }) => {
    if (data instanceof Uint8Array) {
      module = data;
      return;
    }
    try {
      program ??= await Program.load(module);
      if (data.capture) await read(data);
      else answer(data, program.run(data.words, data.files));
    } catch (error) {
      program = null;
      scope.postMessage({ number: data.number, failed: error.message });
    }
  };
}

/* The end of what a worker runs. */
