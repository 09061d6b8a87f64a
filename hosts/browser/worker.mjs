// Runs a program beside the page, so that the page lives on. It is sent the modules, and sends what is printed and the end.
import { Refused, outputTo, runProgram } from "../common/host.mjs";

function sendCopy(bytes) {
  const copy = bytes.slice();
  postMessage(copy, [copy.buffer]);
}

function endOf(modules) {
  try {
    return runProgram(modules, outputTo(sendCopy));
  } catch (error) {
    if (!(error instanceof Refused)) {
      throw error;
    }
    return { kind: "refused", words: error.message };
  }
}

// all calls of a program stand in the stack of its end
Error.stackTraceLimit = Infinity;
onmessage = ({ data: modules }) => postMessage(endOf(modules));
