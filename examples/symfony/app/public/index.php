<?php
// Debian's packages of Symfony stand in PHP's include path.
foreach (['Bundle/FrameworkBundle', 'Bundle/TwigBundle', 'Bridge/Twig', 'Component/Yaml', 'Component/Security/Csrf'] as $part) {
    require_once "Symfony/$part/autoload.php";
}
spl_autoload_register(static function (string $class): void {
    if (str_starts_with($class, 'App\\')) {
        require __DIR__.'/../src/'.strtr(substr($class, 4), '\\', '/').'.php';
    }
});
error_reporting(E_ALL & ~E_DEPRECATED & ~E_USER_DEPRECATED);

$kernel = new App\Kernel('prod', false);
$request = Symfony\Component\HttpFoundation\Request::createFromGlobals();
$response = $kernel->handle($request);
$response->send();
$kernel->terminate($request, $response);
