// Searches beside the page, so that typing never waits for it; the page ends it to stop a search. The worker runs the
// page's own script, in which only this part has to do there.
const IN_WORKER = typeof document === "undefined";
const OWN_SCRIPT = IN_WORKER ? "" : document.currentScript.textContent;

if (IN_WORKER) {
  let opened = null;
  self.onmessage = async ({ data }) => {
    if (data.module) opened = openDesk(data.module);
    if (data.text === undefined) return;
    const found = (await opened).find(data.text);
    self.postMessage({ number: data.number, ...found }, [found.days.buffer]);
  };
}
