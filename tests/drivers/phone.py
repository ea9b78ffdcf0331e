"""The page of a reporter in a browser, which is touched; and what is wrong with how it looks."""

from typing import Any, Self

from drivers.wait import until

SIZES = {
    **{"small": (320, 568), "phone": (360, 640), "large": (390, 844)},
    **{"tablet": (768, 1024), "desk": (1920, 1080)},
}
OFFLINE = "No connection: nothing you tap counts"
# The contrast of each text with what is behind it, targets that are small, what is cut, and what
# leaves the window.
FAULTS = """const visible = (element) => {
  const it = element.getBoundingClientRect();
  return it.width > 1 && it.height > 1 && !element.closest(".heard, [hidden]");
};
const part = (it) => it <= 0.03928 ? it / 12.92 : ((it + 0.055) / 1.055) ** 2.4;
const bright = (color) => {
  const [r, g, b] = color.match(/[\\d.]+/g).map((it) => part(it / 255));
  return 0.2126 * r + 0.7152 * g + 0.0722 * b;
};
const behind = (element) => {
  for (let at = element; at; at = at.parentElement) {
    const color = getComputedStyle(at).backgroundColor;
    if (!/^rgba.*, 0\\)$|transparent/.test(color)) return color;
  }
};
const found = [], walk = document.createTreeWalker(document.body, NodeFilter.SHOW_TEXT);
while (walk.nextNode()) {
  const text = walk.currentNode.data.trim(), parent = walk.currentNode.parentElement;
  if (!text || !visible(parent) || parent.closest("script")) continue;
  const colors = [getComputedStyle(parent).color, behind(parent)].map(bright);
  const contrast = (Math.max(...colors) + 0.05) / (Math.min(...colors) + 0.05);
  if (contrast < 4.5) found.push(`${text}: contrast ${contrast.toFixed(1)}`);
  const range = document.createRange(), around = parent.closest("section, nav, header");
  range.selectNodeContents(walk.currentNode);
  const at = range.getBoundingClientRect(), section = around.getBoundingClientRect();
  const box = (parent.closest("button, td, th") || around).getBoundingClientRect();
  if (at.left < box.left - 1 || at.right > Math.min(box.right, section.right) + 1) {
    found.push(`${text}: is cut`);
  }
  if (parent.closest("button") && (at.top < box.top - 1 || at.bottom > box.bottom + 1)) {
    found.push(`${text}: leaves its button`);
  }
}
for (const target of [...document.querySelectorAll("button, a")].filter(visible)) {
  const { width, height } = target.getBoundingClientRect();
  if (width < 48 || height < 48) found.push(`${target.textContent}: ${width} by ${height}`);
}
if (document.documentElement.scrollWidth > innerWidth || scrollY !== 0) {
  found.push("the page leaves the window");
}
return found;"""


class Phone:
    """The page of a reporter in a browser of a size, which is touched."""

    def __init__(self, browser: Any, size: str = "phone") -> None:
        self.browser = browser
        self.run: Any = browser.execute_script
        self.dress(size)

    def cdp(self, name: str, **words: Any) -> Any:
        """A command of the browser's protocol."""
        return self.browser.execute_cdp_cmd(name, words)

    def dress(self, size: str, scheme: str = "light", motion: str = "no-preference") -> None:
        """Makes it as large as this, in these colours."""
        self.size = SIZES[size]
        sides = dict(zip(("width", "height"), self.size))
        how = {"deviceScaleFactor": 1, "mobile": self.size[0] < 700}
        self.cdp("Emulation.setDeviceMetricsOverride", **sides, **how)
        self.cdp("Emulation.setTouchEmulationEnabled", enabled=True)
        features = {"prefers-color-scheme": scheme, "prefers-reduced-motion": motion}
        told = [{"name": name, "value": value} for name, value in features.items()]
        self.cdp("Emulation.setEmulatedMedia", features=told)

    def faults(self, size: str, scheme: str = "light") -> Any:
        """What is wrong with how it looks at a size, once it has that."""
        self.dress(size, scheme)
        inner = "return innerWidth === arguments[0] && innerHeight === arguments[1]"
        assert until(lambda: bool(self.run(inner, *self.size)))
        return self.run(FAULTS)

    def open(self, hall: Any, number: int = 1, match: int = 1) -> Self:
        """Opens the page of a reporter of a server, at a match."""
        self.browser.get(f"http://127.0.0.1:{hall.port}/report/{hall.key(number)}")
        assert until(self.is_online, 60)
        self.choose(match)
        return self

    def is_online(self) -> bool:
        """Whether it has a connection, and all is drawn."""
        return bool(self.run("return Boolean(moment && me && isOnline())"))

    def choose(self, match: int) -> None:
        """Chooses a match, and waits until its buttons stand still."""
        self.run("choose(arguments[0], true)", match)
        left = (
            "const left = (name) => document.querySelector(name).getBoundingClientRect().left;"
            "return Math.abs(left('#match') - left('main'))"
        )
        assert until(lambda: bool(self.size[0] >= 700 or self.run(left) < 1))

    def where(self, button: str) -> Any:
        """The middle of a button, which is brought into the window."""
        return self.run(
            "const it = document.querySelector(arguments[0]);"
            "it.scrollIntoView({block: 'nearest', behavior: 'instant'});"
            "const at = it.getBoundingClientRect();"
            "return [at.x + at.width / 2, at.y + at.height / 2]",
            "#back" if button == "back" else f"[data-event={button}]",
        )

    def touch(self, kind: str, *points: tuple[float, float]) -> None:
        """Fingers come down at these points, move there, or leave."""
        touched = [{"x": x, "y": y} for x, y in points]
        self.cdp("Input.dispatchTouchEvent", type=f"touch{kind}", touchPoints=touched)

    def down(self, button: str) -> None:
        """A finger comes down on a button."""
        self.touch("Start", self.where(button))

    def up(self) -> None:
        """The finger leaves."""
        self.touch("End")

    def tap(self, *buttons: str) -> None:
        """Taps buttons, one after the other."""
        for button in buttons:
            self.down(button)
            self.up()

    def notes(self) -> dict[str, str]:
        """What stands at each button."""
        found: dict[str, str] = self.run(
            "return Object.fromEntries([...document.querySelectorAll('[data-event]')].map("
            "(it) => [it.dataset.event, it.querySelector('.note').textContent]))"
        )
        return found

    def says(self, button: str, words: str) -> None:
        """Awaits that this stands at a button."""
        assert until(lambda: words in self.notes()[button], 30), self.notes()[button]

    def text(self, id: str) -> Any:
        """The text of an element."""
        return self.run("return document.getElementById(arguments[0]).textContent", id)

    def events(self) -> Any:
        """The last events that are listed."""
        items = "[...document.querySelectorAll('.events li')]"
        return self.run(f"return {items}.map((it) => it.textContent)")
