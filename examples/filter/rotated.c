#include "text.h"

char rotated(char letter) {
    if (letter >= 'a' && letter <= 'z') return (char)(letter <= 'm' ? letter + 13 : letter - 13);
    if (letter >= 'A' && letter <= 'Z') return (char)(letter <= 'M' ? letter + 13 : letter - 13);
    return letter;
}
