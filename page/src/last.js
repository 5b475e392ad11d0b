// In the words of old browsers: one that cannot read the script above has begun nothing.
if (!document.documentElement.hasAttribute("data-begun")) {
  document.getElementById("too-old").hidden = false;
  document.getElementById("choose").hidden = true;
}
