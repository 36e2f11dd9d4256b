// Starts the page. If a part of it does not load, the page says so, and its controls are off.

const status = document.getElementById('status');
status.textContent = 'Loading the library';
try {
  const { start } = await import('./page.js');
  await start();
} catch (error) {
  status.textContent = `The page could not be loaded: ${(error.cause ?? error).message}. Reload it to try again.`;
  status.classList.add('error');
  for (const control of document.querySelectorAll('main button, main textarea')) control.disabled = true;
}
