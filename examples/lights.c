// The next state of a traffic light with a button for walkers: 0 green, 1 yellow, 2 red, 3 red and yellow.
unsigned char lights(unsigned char state, unsigned char button) {
    switch (state) {
    case 0:
        return button > 127 ? 1 : 0;
    case 2:
        return button == 0 ? 3 : 2;
    case 3:
        return 0;
    default:
        return 2;
    }
}
