// An error in the module script, say where a browser has no WebAssembly at all, would otherwise show nothing.
setTimeout(() => {
  if (window.isReady) return;
  const it = document.getElementById('broken');
  it.textContent = 'This browser cannot run the page’s WebAssembly module.';
  it.hidden = false;
}, 3000);
