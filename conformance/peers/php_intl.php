<?php
// What PHP's intl answers for each line of the standard input.
//   php php_intl.php canonical   Locale::canonicalize($text)
//   php php_intl.php parts       Locale::composeLocale(Locale::parseLocale($text))
//   php php_intl.php version     the version

function answer(string $mode, string $text): string
{
    try {
        if ($mode === "canonical") {
            $made = Locale::canonicalize($text);
        } else {
            $parts = Locale::parseLocale($text);
            $made = is_array($parts) ? Locale::composeLocale($parts) : $parts;
        }
    } catch (Throwable $refusal) {
        return "! " . get_class($refusal) . ": " . strtr($refusal->getMessage(), "\n", " ");
    }
    return is_string($made) ? $made : "! " . intl_get_error_message();
}

if ($argv[1] === "version") {
    echo "PHP " . PHP_VERSION . ", ICU " . INTL_ICU_VERSION . "\n";
    exit;
}
while (($line = fgets(STDIN)) !== false) {
    fwrite(STDOUT, answer($argv[1], substr($line, 0, -1)) . "\n");
}
